"""Commands that are spelled as usual, read quickly.

Each line is cut into its words, and each word is looked up in a table. A line with a word that no table has goes to the
slow reader, which also finds the reason of a refusal.
"""
from typing import Callable, Dict, List, Tuple

from .values import World

Command = Tuple
Table = Dict[str, int]
Reader = Callable[[List[str], Table, Table], Command]
NUMBERS: Table = {str(n): n for n in range(2048)}     # fields of a block, and indexes and counts as small


def on_register(words: List[str], registers: Table, _: Table) -> Command:
    head, one = words
    return head, registers[one]


def on_registers(words: List[str], registers: Table, _: Table) -> Command:
    head, one, other = words
    return head, registers[one], registers[other]


def read_cons(words: List[str], registers: Table, areas: Table) -> Command:
    head, to, area, car, cdr = words
    return head, registers[to], areas[area], registers[car], registers[cdr]


def read_list(words: List[str], registers: Table, areas: Table) -> Command:
    if not 4 <= len(words) <= 1027:
        raise ValueError
    return (words[0], registers[words[1]], areas[words[2]], *map(registers.__getitem__, words[3:]))


def read_make(words: List[str], registers: Table, areas: Table) -> Command:
    head, to, area, code, length = words
    return head, registers[to], areas[area], NUMBERS[code], NUMBERS[length]


def read_get(words: List[str], registers: Table, _: Table) -> Command:
    head, to, block, index = words
    return head, registers[to], registers[block], NUMBERS[index]


def read_put(words: List[str], registers: Table, _: Table) -> Command:
    head, block, index, source = words
    return head, registers[block], NUMBERS[index], registers[source]


def read_set(words: List[str], registers: Table, _: Table) -> Command:
    head, to, constant = words
    return head, registers[to], None if constant == "nil" else NUMBERS[constant]


def read_grow(words: List[str], registers: Table, _: Table) -> Command:
    head, block, count = words
    return head, registers[block], NUMBERS[count]


def read_count(words: List[str], _: Table, __: Table) -> Command:
    head, count = words
    return head, NUMBERS[count]


READERS: Dict[str, Reader] = {
    "set": read_set, "cons": read_cons, "list": read_list, "make": read_make, "grow": read_grow, "get": read_get,
    "put": read_put, "size": on_register, "scavenge": read_count, "page-out": read_count,
    **dict.fromkeys(("move", "car", "cdr", "rplaca", "rplacd", "eq"), on_registers)}


class QuickLines:
    """The commands of a world's trace, by their lines. The slow reader answers the command of a line, or raises
    Refused."""

    def __init__(self, world: World, slow: Callable[[str, World], Command]):
        self.world, self.slow = world, slow
        self.registers = {str(n): n for n in range(world.space.registers)}
        self.areas = world.area_numbers
        self.known: Dict[str, Command] = {}

    def read(self, line: str) -> Command:
        command = self.known.get(line)
        if command is not None:
            return command
        words = line.split(" ")
        try:
            command = READERS[words[0]](words, self.registers, self.areas)
        except (KeyError, ValueError):
            command = self.slow(line, self.world)
        self.known[line] = command
        return command
