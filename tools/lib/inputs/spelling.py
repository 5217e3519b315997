"""How lines and words are spelled. A line is a str of Latin-1, so that each byte is a character."""
import re
from typing import Optional

from .values import Ref, Value

TOP = 4294967295
NAME = re.compile("[a-z][a-z0-9-]{0,15}")
SPELLED = {"\r": "\\r", "\t": "\\t", "\n": "\\n"}
LEAST, GREATEST = -2147483648, 2147483647


def number(word: str, low: int = 0, high: int = TOP) -> Optional[int]:
    """The number that the word spells, or None if it is none of this range."""
    if not word.isdigit() or not word.isascii() or len(word) > 10 or word[0] == "0" and word != "0":
        return None
    n = int(word)
    return n if low <= n <= high else None


def integer(word: str) -> Optional[int]:
    """The integer of 32 bits that the word spells, or None."""
    if word[:1] == "-":
        n = number(word[1:], 1, -LEAST)
        return None if n is None else -n
    return number(word, 0, GREATEST)


def value(word: str) -> Value:
    """The value that the word spells. A word that spells none raises ValueError."""
    if word == "nil":
        return None
    n = number(word[1:]) if word[:1] == "#" else integer(word)
    if n is None:
        raise ValueError(word)
    return Ref(n) if word[0] == "#" else n


def is_name(word: str) -> bool:
    return NAME.fullmatch(word) is not None


def visible(text: str) -> str:
    """The text with each byte outside 32 to 126 spelled out."""
    if text.isascii() and text.isprintable():
        return text
    return "".join(char if " " <= char <= "~" else SPELLED.get(char, f"\\x{ord(char):02x}") for char in text)


def is_well_formed(line: str) -> bool:
    """The line isn't empty, has bytes 32 to 126 alone, and single spaces between its words alone."""
    return (line != "" and line.isascii() and line.isprintable()
            and line[0] != " " and line[-1] != " " and "  " not in line)
