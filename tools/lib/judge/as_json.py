"""Commands and replies as values of JSON, for tools that write a JSON line for each."""
import json
from typing import List, Union

from ..inputs.spelling import integer

Word = Union[str, int]


def line(value: dict) -> str:
    """A value as one line of JSON."""
    return json.dumps(value, separators=(",", ":"))


def word(text: str) -> Word:
    """A number as a number, any other word as it is."""
    n = integer(text)
    return text if n is None else n


def words(text: str) -> List[Word]:
    return [word(one) for one in text.split(" ")]


def reply(head: str, lines: List[str]) -> Union[None, Word, list]:
    """A reply of one word is the word, one of several words their list; `stats` and `dump` have a list for each line.
    A reply that isn't there is null."""
    if not lines:
        return None
    if head in ("stats", "dump") and lines != ["fault"]:
        return [words(one) for one in lines]
    said = words(lines[0])
    return said[0] if len(said) == 1 else said
