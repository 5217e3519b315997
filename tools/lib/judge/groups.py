"""What a hypothesis leaves open, and the collection that it assumes. Copies share them, so except the counts of a
collection nothing in them changes."""
from typing import Dict, FrozenSet, Optional

from ..inputs.values import Levels
from .known import NO_GARBAGE, Class, Garbage


# The first words of replies: to `flip`, and to `scavenge` and `reclaim` while a collection runs.
FLIPPED, BUSY, NOT_FLIPPED = frozenset({"flipped"}), frozenset({"busy"}), frozenset({"not-flipped"})
DONE, DONE_OR_MORE = frozenset({"done"}), frozenset({"done", "more"})
RECLAIMED, NOT_DONE = frozenset({"reclaimed"}), frozenset({"not-done"})


def replies_in(head: str, is_over: bool, was_over: Optional[bool]) -> FrozenSet[str]:
    """The replies to `scavenge` or `reclaim`, if the collection is certainly over then or may be; and if it was."""
    if head == "scavenge":
        return DONE if is_over else DONE_OR_MORE
    if is_over:
        return RECLAIMED
    return NOT_DONE if was_over is False else RECLAIMED | NOT_DONE


def level_in(classes: Dict[Class, FrozenSet[int]], name: int, area: int) -> Optional[int]:
    for (there, level), names in classes.items():
        if there == area and name in names:
            return level
    return None


class Group:
    """Names of one area and level of which an unknown closed part is held, and the sums that it can have: exactly
    these, or these at most. A group without names has charges alone."""
    __slots__ = ("area", "level", "names", "sums", "is_exact")

    def __init__(self, area: int, level: int, names: FrozenSet[int], sums_there: int, is_exact: bool):
        self.area, self.level, self.names, self.sums, self.is_exact = area, level, names, sums_there, is_exact

    def inexact(self) -> "Group":
        return Group(self.area, self.level, self.names, self.sums, False)

    def key(self) -> tuple:
        return self.area, self.level, self.names, self.sums, self.is_exact


class Collection:
    """A collection that runs: what was flipped, the condemned names by area and level, those that are bound, the words
    of condemned husks by area, the work owed for what is certain, and paid, and whether its scan has finished (None if
    that isn't known). `garbage` has the names that were held at the flip but not led to by a register, and the bound names to
    which these lead. The collection is exact if nothing is bound only by what is perhaps held."""
    __slots__ = ("what", "classes", "bound", "gone", "owed", "paid", "over", "garbage", "is_exact")

    def __init__(self, what: Levels, classes: Dict[Class, FrozenSet[int]], bound: FrozenSet[int], gone: Dict[int, int],
                 owed: int):
        self.what, self.classes, self.bound, self.gone, self.owed = what, classes, bound, gone, owed
        self.paid = 0
        self.garbage: Garbage = NO_GARBAGE
        self.is_exact = True
        self.over: Optional[bool] = False

    def copy(self) -> "Collection":
        other = Collection(self.what, self.classes, self.bound, self.gone, self.owed)
        other.paid, other.over, other.garbage, other.is_exact = self.paid, self.over, self.garbage, self.is_exact
        return other

    def level_of(self, name: int, area: int) -> Optional[int]:
        """The level at which a name is condemned, if it is."""
        return level_in(self.classes, name, area)
