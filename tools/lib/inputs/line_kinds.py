"""The kinds of lines: for each first word the kinds of the words after it.

Counts are tested before words, and too many values have reasons of their own.
"""
from typing import List, NamedTuple, Optional, Tuple

from . import word_kinds as kinds
from .refusal import Refused
from .values import World
from .word_kinds import Kind


class LineKind(NamedTuple):
    """The kinds of the words after the first, and the kind of those after them, of which there are at least `least` and at most
    `most`. More are refused with the reason `too_many`."""
    words: Tuple[Kind, ...]
    more: Optional[Kind] = None
    least: int = 0
    most: int = 0
    too_many: str = "wrong count"

    def kind_at(self, place: int) -> Optional[Kind]:
        """The kind of the word at a place of the line, counted from 0."""
        return self.words[place - 1] if place <= len(self.words) else self.more

    def test_count(self, count: int) -> None:
        """Refuses a line if it may not have this number of words after its first."""
        beyond = count - len(self.words)
        if self.more is not None and beyond > self.most:
            raise Refused(self.too_many)
        if beyond < self.least or self.more is None and beyond > 0:
            raise Refused("wrong count")

    def shape(self, head: str) -> str:
        """The line as a table of commands shows it."""
        signs = [kind.sign for kind in self.words] + ([self.more.sign] if self.more else [])
        registers = iter("RSTUVW")
        named = [next(registers) if sign == "R" else sign for sign in signs]
        return " ".join([head, *named] + [".."] * (self.more is not None))


R, A = kinds.REGISTER, kinds.AREA

COMMANDS = {
    "set": LineKind((R, kinds.CONSTANT)),
    "move": LineKind((R, R)),
    "cons": LineKind((R, A, R, R)),
    "list": LineKind((R, A), R, 1, 1024, "too many items"),
    "make": LineKind((R, A, kinds.CODE, kinds.LENGTH)),
    "grow": LineKind((R, kinds.LENGTH)),
    "car": LineKind((R, R)),
    "cdr": LineKind((R, R)),
    "rplaca": LineKind((R, R)),
    "rplacd": LineKind((R, R)),
    "get": LineKind((R, R, kinds.INDEX)),
    "put": LineKind((R, kinds.INDEX, R)),
    "size": LineKind((R,)),
    "eq": LineKind((R, R)),
    "flip": LineKind((kinds.LEVELS,)),
    "scavenge": LineKind((kinds.COUNT,)),
    "reclaim": LineKind(()),
    "page-out": LineKind((kinds.COUNT,)),
    "stats": LineKind(()),
    "dump": LineKind(()),
    "end": LineKind(()),
}

WORLD = {
    "space": LineKind(kinds.SPACE),
    "area": LineKind((kinds.NEW_NAME, kinds.AREA_KIND, kinds.QUOTA)),
    "cons": LineKind((A, kinds.VALUE, kinds.VALUE)),
    "block": LineKind((A, kinds.CODE), kinds.VALUE, 0, 2047, "too many fields"),
    "run": LineKind((A,), kinds.VALUE, 1, 1024, "too many items"),
    "root": LineKind((kinds.ROOT_REGISTER, kinds.ROOT_VALUE)),
    "trace": LineKind(()),
}


def capacity_line(world: World) -> LineKind:
    """The capacity line, which has a number for each level."""
    return LineKind((kinds.CAPACITY,) * world.space.levels)


def read_words(kind: LineKind, words: List[str], world: World) -> list:
    """The values of the words after the first. The leftmost wrong word refuses the line."""
    said: list = []
    kind.test_count(len(words) - 1)
    kinds_there = kind.words
    if kind.more is not None:
        kinds_there += (kind.more,) * (len(words) - 1 - len(kinds_there))
    try:
        for there, word in zip(kinds_there, words[1:]):
            said.append(there.read(word, world))
    except Refused as refused:
        refused.place = len(said) + 1
        raise
    return said
