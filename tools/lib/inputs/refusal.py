"""Why a line of an input is refused."""
from typing import Optional

BAD, NO_ROOM = 2, 4      # statuses


class Refused(Exception):
    """The reason, the status that it leads to, and the place of the wrong word, if it is one word."""

    def __init__(self, reason: str, status: int = BAD, place: Optional[int] = None):
        super().__init__(reason)
        self.reason, self.status, self.place = reason, status, place
