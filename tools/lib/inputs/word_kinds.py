"""The kinds of words in lines: how each is read, why one is refused, and what would do in its place.

To read a word is a function of the word and of the world so far. It answers what the word says, or raises Refused.
"""
from typing import Callable, NamedTuple, Optional

from . import spelling
from .refusal import Refused
from .spelling import TOP
from .values import Levels, Ref, Value, World


class Kind(NamedTuple):
    """A kind of word: its sign in a table of commands, how it is read, and what would do."""
    sign: str
    read: Callable[[str, World], object]
    expected: Callable[[World], str]


def ranged(sign: str, low: int, high: int) -> Kind:
    """A number from low to high."""
    def read(word: str, _: World) -> int:
        n = spelling.number(word, low, high)
        if n is None:
            raise Refused("bad number")
        return n
    return Kind(sign, read, lambda _: f"a number from {low} to {high}")


def read_register(word: str, world: World) -> int:
    n = spelling.number(word)
    if n is None or n >= world.space.registers:
        raise Refused("no register")
    return n


def register_expected(world: World) -> str:
    last = world.space.registers - 1
    return f"a register, 0 to {last}" if last else "register 0, the only one"


def read_area(word: str, world: World) -> int:
    area = world.area_numbers.get(word)
    if area is None:
        raise Refused("no area")
    return area


def area_expected(world: World) -> str:
    return "an area: " + ", ".join(area.name for area in world.areas)


def read_value(word: str, _: World) -> Value:
    try:
        return spelling.value(word)
    except ValueError:
        raise Refused("bad value") from None


def read_constant(word: str, world: World) -> Optional[int]:
    value = read_value(word, world)
    if isinstance(value, Ref):
        raise Refused("bad value")
    return value


def read_levels(word: str, world: World) -> Levels:
    """Everything as "full", else the levels."""
    if word == "full":
        return word
    pieces = word.split(",")
    found = [level for level in (spelling.number(piece, 1, world.space.levels) for piece in pieces) if level is not None]
    if len(found) < len(pieces) or any(one >= other for one, other in zip(found, found[1:])):
        raise Refused("bad levels")
    return tuple(found)


def levels_expected(world: World) -> str:
    top = world.space.levels
    return "full, or 1" if top == 1 else f"full, or ascending levels from 1 to {top}, such as 1,2"


def read_new_name(word: str, world: World) -> str:
    if not spelling.is_name(word):
        raise Refused("bad name")
    if word in world.area_numbers:
        raise Refused("area twice")
    return word


def read_area_kind(word: str, _: World) -> str:
    if word not in ("static", "dynamic", "ephemeral"):
        raise Refused("bad kind")
    return word


def read_root_register(word: str, world: World) -> int:
    register = read_register(word, world)
    if register in world.roots:
        raise Refused("register twice")
    return register


def read_root_value(word: str, world: World) -> Value:
    value = read_value(word, world)
    if isinstance(value, Ref) and value.n >= len(world.objects):
        raise Refused(f"no object {value.n}")
    return value


def root_register_expected(world: World) -> str:
    free = [n for n in range(world.space.registers) if n not in world.roots]
    return f"a register, 0 to {world.space.registers - 1}, without a root line" if free else "no further root line"


def root_value_expected(world: World) -> str:
    last = len(world.objects) - 1
    return INTEGERS + (f", or an object, #0 to #{last}" if last >= 0 else "; there are no objects")


INTEGERS = f"nil, or an integer from {spelling.LEAST} to {spelling.GREATEST}"

REGISTER = Kind("R", read_register, register_expected)
AREA = Kind("AREA", read_area, area_expected)
CODE = ranged("CODE", 0, 65535)
LENGTH = ranged("N", 0, 2047)
COUNT = ranged("N", 0, TOP)
INDEX = ranged("I", 0, TOP)
CONSTANT = Kind("V", read_constant, lambda _: INTEGERS)
VALUE = Kind("V", read_value, lambda _: INTEGERS + ", or #K, the object with the number K")
LEVELS = Kind("LEVELS", read_levels, levels_expected)
NEW_NAME = Kind("NAME", read_new_name, lambda _: "a new name: a letter a to z, and at most 15 of a to z, 0 to 9 and -")
AREA_KIND = Kind("KIND", read_area_kind, lambda _: "static, dynamic or ephemeral")
QUOTA = ranged("QUOTA", 0, 1048576)
CAPACITY = ranged("C", 0, 16777216)
ROOT_REGISTER = Kind("R", read_root_register, root_register_expected)
ROOT_VALUE = Kind("V", read_root_value, root_value_expected)
SPACE = (ranged("REGIONS", 5, 1024), ranged("FRAMES", 32, 4096), ranged("REGISTERS", 1, 256),
         ranged("LEVELS", 1, 6), ranged("RATE", 0, 16))
