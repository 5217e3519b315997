"""An input with one line changed, so that there may be a line to refuse. The number of the input decides which line, and
how it is changed."""
from typing import Callable, List

from .drawing import Draw

Words = List[str]
PIECES = ("nil", "0", "-1", "#3", "x", "", "4294967296", "a0", "end", "\t")
CHARACTERS = " \t\r0-#,az"


def other_word(draw: Draw, words: Words) -> Words:
    at = draw.below(len(words))
    return [*words[:at], draw.choice(PIECES), *words[at + 1:]]


def word_more(draw: Draw, words: Words) -> Words:
    at = draw.below(len(words) + 1)
    return [*words[:at], draw.choice(PIECES), *words[at:]]


def word_less(draw: Draw, words: Words) -> Words:
    at = draw.below(len(words))
    return words[:at] + words[at + 1:]


def other_character(draw: Draw, words: Words) -> Words:
    line = " ".join(words)
    at = draw.below(len(line) + 1)
    return [line[:at] + draw.choice(CHARACTERS) + line[at + draw.below(2):]]


WAYS: List[Callable[[Draw, Words], Words]] = [other_word, word_more, word_less, other_character]


def changed_line(draw: Draw, lines: List[str], at: int) -> List[str]:
    """The lines in place of line `at`: a changed one, two times the same, or none."""
    way = draw.below(len(WAYS) + 2)
    if way >= len(WAYS):
        return [lines[at]] * 2 if way == len(WAYS) else []
    return [" ".join(WAYS[way](draw, lines[at].split(" ")))]


def with_line_changed(text: str, number: int) -> str:
    """The text of an input, with one line changed. The lines of the world, which are few, are as likely as the trace."""
    draw, lines = Draw(number), text.split("\n")
    trace = lines.index("trace")
    at = draw.below(trace + 1) if draw.one_in(2) else draw.below(len(lines) - 1)
    return "\n".join(lines[:at] + changed_line(draw, lines, at) + lines[at + 1:])
