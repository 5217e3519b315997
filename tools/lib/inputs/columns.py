"""The wrong piece of a refused line, and how a line is shown with it."""
from typing import NamedTuple

from .line_kinds import COMMANDS, WORLD, LineKind, capacity_line
from .spelling import visible
from .verdict import LONGEST, Verdict

SHOWN = 76          # characters of a line that are shown
NAMES = {"\r": "a carriage return", "\t": "a tab", "\0": "a NUL byte"}


class Span(NamedTuple):
    """A piece of a line: its first column, from 1, and its width in bytes."""
    column: int
    width: int


def line_kind(found: Verdict, line: str) -> LineKind:
    """The kind of the refused line, by its first word, which is known."""
    head = line.split(" ")[0]
    if found.world is not None:
        return COMMANDS[head]
    return capacity_line(found.so_far) if head == "capacity" else WORLD[head]


def span(found: Verdict, line: str) -> Span:
    """The wrong piece of the refused line."""
    if found.place is not None:
        return word_span(line, found.place)
    if found.reason in ("wrong count", "too many fields", "too many items"):
        return surplus_span(found, line)
    if found.reason == "bad line":
        return Span(bad_byte(line) + 1, 1)
    if found.reason == "line too long":
        return Span(LONGEST + 1, 1)
    if found.reason == "not a world":
        return format_span(line)
    return Span(1, len(line))


def word_span(line: str, place: int) -> Span:
    """The word at a place of a line, counted from 0. After the last word it is one column."""
    words = line.split(" ")
    before = sum(len(word) + 1 for word in words[:place])
    return Span(before + 1, len(words[place]) if place < len(words) else 1)


def surplus_span(found: Verdict, line: str) -> Span:
    """The first word that is too many, or the place after the last if there are too few."""
    kind, count = line_kind(found, line), len(line.split(" "))
    most = len(kind.words) + (kind.most if kind.more else 0)
    return word_span(line, min(most + 1, count))


def bad_byte(line: str) -> int:
    """The place of the first byte that is outside 32 to 126, or of the first space that isn't allowed."""
    for at, char in enumerate(line):
        if not " " <= char <= "~":
            return at
        if char == " " and (at == 0 or at + 1 == len(line) or line[at + 1] == " "):
            return at if at + 1 == len(line) or at == 0 else at + 1
    return 0


def format_span(line: str) -> Span:
    """The word of the first line that isn't `lispm-world`, 1 or 2."""
    if line.startswith(BYTE_ORDER_MARK):
        return Span(1, len(BYTE_ORDER_MARK))
    if line.endswith("\r"):
        return Span(len(line), 1)
    return word_span(line, 1) if line.startswith("lispm-world ") else Span(1, len(line))


BYTE_ORDER_MARK = b"\xef\xbb\xbf".decode("latin-1")


def named_byte(char: str) -> str:
    return NAMES.get(char, f"the byte {ord(char)}")


def pointed(line: str, where: Span) -> str:
    """The line and a line of carets under the span. A long line is shown around it."""
    start = max(0, where.column - 1 - SHOWN // 2) if len(line) > SHOWN else 0
    first, last = where.column - 1, where.column - 1 + where.width
    before, piece, behind = visible(line[start:first]), visible(line[first:last])[:SHOWN], visible(line[last:start + SHOWN])
    dots = ".." if start else ""
    more = ".." if start + SHOWN < len(line) else ""
    return f"    {dots}{before}{piece}{behind}{more}\n    {' ' * len(dots + before)}{'^' * max(1, len(piece))}"
