"""The graph that the words of a machine represent: values, objects, and the dump of what the registers reach."""
from typing import Dict, List, NamedTuple, Optional, Tuple, Union

from machine import Machine
from words import FIXNUM, FORWARDS, HEADER, LAST, LIST, NIL, NORMAL, SECOND, STRUCT, Word
from wrong import Wrong, need

MOST_FORWARDS = 12
MOST_RUN = 1024
Reference = Tuple[int, int]              # the final address, and LIST or STRUCT
Value = Union[str, Reference]            # nil and integers are spelled


class Object(NamedTuple):
    area: int
    charge: int
    code: Optional[int]                  # None for a cons
    parts: List[Value]


def word_at(machine: Machine, address: int) -> Word:
    found = machine.words.get(address)
    if found is None:
        raise Wrong(f"an address of no used word: {address}")
    return found


def follow(machine: Machine, address: int) -> int:
    """The address to which forwards lead from an address."""
    for _ in range(MOST_FORWARDS + 1):
        word = word_at(machine, address)
        if word.tag not in FORWARDS:
            return address
        address = word.low
    raise Wrong(f"more than twelve forwards lead to {address}")


def value_of(machine: Machine, word: Word) -> Value:
    """The value that a register or a part has."""
    if word.tag == FIXNUM:
        return str(word.low)
    if word.tag == NIL:
        return "nil"
    need(word.tag in (LIST, STRUCT), f"a value of tag {word.tag}")
    return follow(machine, word.low), word.tag


def block_at(machine: Machine, address: int) -> Object:
    header = word_at(machine, address)
    need(header.tag == HEADER, f"no header of a block at {address}")
    fields = range(address + 1, address + 1 + header.fields)
    parts = [value_of(machine, word_at(machine, field)) for field in fields]
    return Object(machine.region(address).area, 1 + header.fields, header.block_code, parts)


def cons_at(machine: Machine, address: int) -> Object:
    """A pair or a cell, according to the code of its first word."""
    word, area = word_at(machine, address), machine.region(address).area
    need(word.tag != HEADER and word.code != SECOND, f"no cons at {address}")
    car = value_of(machine, word)
    if word.code == NORMAL:
        second = word_at(machine, address + 1)
        return Object(area, 2 if second.code == SECOND else 3, None, [car, value_of(machine, second)])
    cdr: Value = "nil" if word.code == LAST else (follow(machine, address + 1), LIST)
    return Object(area, 3, None, [car, cdr])


def object_at(machine: Machine, reference: Reference) -> Object:
    address, tag = reference
    return block_at(machine, address) if tag == STRUCT else cons_at(machine, address)


class Graph:
    """What the registers reach, numbered as in a dump."""

    def __init__(self, machine: Machine):
        self.machine = machine
        self.number: Dict[Reference, int] = {}
        self.objects: List[Object] = []
        self.registers = [value_of(machine, word) for word in machine.registers]
        for value in self.registers:
            self.visit(value)
        for found in self.objects:                      # grows while it is walked
            for value in found.parts:
                self.visit(value)

    def visit(self, value: Value) -> None:
        """Numbers the object of a value, and those that follow along its cdrs."""
        while not isinstance(value, str) and value not in self.number:
            found = object_at(self.machine, value)
            self.number[value] = len(self.objects)
            self.objects.append(found)
            value = found.parts[1] if found.code is None else "nil"
            if not isinstance(value, str) and value[1] != LIST:
                return

    def reached(self, area: int) -> int:
        """The charge of the objects of an area that are reached."""
        return sum(found.charge for found in self.objects if found.area == area)

    def spelled(self, value: Value) -> str:
        return value if isinstance(value, str) else f"#{self.number[value]}"

    def run_lengths(self) -> List[int]:
        """For each number how many conses of charge 3 make the list from it to its end, each the next; 0 for others."""
        lengths = [0] * (len(self.objects) + 1)
        for at in range(len(self.objects) - 1, -1, -1):
            found = self.objects[at]
            if found.code is None and found.charge == 3:
                cdr = found.parts[1]
                if cdr == "nil":
                    lengths[at] = 1
                elif not isinstance(cdr, str) and lengths[at + 1] and self.number.get(cdr) == at + 1:
                    lengths[at] = lengths[at + 1] + 1 if self.objects[at + 1].area == found.area else 0
        return lengths

    def object_lines(self, names: List[str]) -> List[str]:
        lines, lengths, at = [], self.run_lengths(), 0
        while at < len(self.objects):
            found = self.objects[at]
            name, count = names[found.area], lengths[at] if lengths[at] <= MOST_RUN else 0
            head = f"run {name}" if count else f"cons {name}" if found.code is None else f"block {name} {found.code}"
            values = [one.parts[0] for one in self.objects[at:at + count]] or found.parts
            lines.append(" ".join([head, *map(self.spelled, values)]))
            at += max(1, count)
        return lines

    def dump(self, names: List[str]) -> List[str]:
        """The lines that `dump` writes of this graph, with these names of the areas."""
        machine = self.machine
        areas = [f"area {name} {area.kind} {area.quota}" for name, area in zip(names, machine.areas)]
        roots = [f"root {at} {self.spelled(value)}" for at, value in enumerate(self.registers) if value != "nil"]
        return ["lispm-world 2", "space " + " ".join(map(str, machine.space)), *areas,
                "capacity " + " ".join(map(str, machine.capacity)), *self.object_lines(names), *roots, "end-world"]
