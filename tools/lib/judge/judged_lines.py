"""The lines of an output as they are judged, and what is wrong with one."""
from typing import Optional

NOTHING = "nothing"


class Wrong(Exception):
    """A reply that no run gives: the kind of the error, the expected text, the actual text, and the line of the reply if
    it has several."""

    def __init__(self, kind: str, expected: str, got: str, row: Optional[int] = None):
        super().__init__(kind)
        self.kind, self.expected, self.got, self.row = kind, expected, got, row


class Replies:
    """The lines of an output as they are taken, and the last piece if it has no line feed."""

    def __init__(self, output: bytes):
        self.lines = output.decode("latin-1").split("\n")
        self.piece = self.lines.pop()
        self.at = 0

    def take(self) -> Optional[str]:
        """The next line, or None if there is none."""
        at = self.at
        self.at = at + 1
        return self.lines[at] if at < len(self.lines) else None

    def next_is(self, line: str) -> bool:
        """The next line is this one. It isn't taken."""
        return self.lines[self.at:self.at + 1] == [line]

    def wrong(self, kind: str, expected: str, got: Optional[str], row: Optional[int] = None) -> Wrong:
        """What is wrong with a line, or with a missing line."""
        if got is None:
            return Wrong("cut" if self.piece else "missing", expected, self.piece or NOTHING, row)
        if got.startswith("error"):
            kind = "error"
        return Wrong("fault" if got == "fault" else kind, expected, got, row)
