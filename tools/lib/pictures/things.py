"""Objects to be drawn: those of a world file, or those that the words of a machine at a moment show."""
from typing import Dict, Iterator, List, NamedTuple, Optional, Set, Tuple, Union

from .. import program, tool
from ..inputs import verdict
from ..inputs.values import Obj, Ref, Value
from ..judge import answers
from . import shown_words
from .inside import Machine, Region, Word


class Link(NamedTuple):
    """A reference to the object with this key."""
    key: int


Shown = Union[str, Link]


class Thing(NamedTuple):
    """An object: a cons if it has no code. A cell's cdr follows from its code, so it is drawn beside the next cell."""
    key: int
    name: str
    area: str
    code: Optional[int]
    fields: List[Shown]
    is_cell: bool
    is_held: bool


class Things(NamedTuple):
    """The registers that aren't nil, and the objects."""
    registers: List[Tuple[int, Shown]]
    things: List[Thing]


# ------------------------------------------------------------------ of a world file

def as_input(data: bytes) -> str:
    """A world file as an input without commands."""
    lines = data.decode("latin-1").split("\n")
    return "\n".join("trace\nend" if line == "end-world" else line for line in lines)


def held_in(lispm: str, data: bytes, count: int) -> Set[int]:
    """The objects that registers lead to, according to `lispm why`."""
    if count == 0:
        return set()
    told = answers.lines_of(program.run(lispm, ["why", "--object", "0"], data).output)
    return {int(line.split(" ")[1]) for line in told if line.startswith("level ")}


def shown_value(value: Value) -> Shown:
    return Link(value.n) if isinstance(value, Ref) else "nil" if value is None else str(value)


def thing_of(number: int, found: Obj, areas: List[str], held: Set[int]) -> Thing:
    fields = [shown_value(value) for value in found.fields]
    is_cell = found.code is None and found.charge == 3
    return Thing(number, f"#{number}", areas[found.area], found.code, fields, is_cell, number in held)


def of_world(data: bytes, lispm: str) -> Things:
    """The objects of a world file."""
    read = verdict.judge(as_input(data).encode("latin-1"))
    if read.status or read.world is None:
        raise tool.ToolError(read.error() or "not a world file", tool.WRONG)
    world = read.world
    held = held_in(lispm, data, len(world.objects))
    areas = [area.name for area in world.areas]
    registers = [(at, shown_value(value)) for at, value in enumerate(world.registers()) if value is not None]
    return Things(registers, [thing_of(at, found, areas, held) for at, found in enumerate(world.objects)])


# ------------------------------------------------------------------ of a machine

def final(machine: Machine, address: int) -> int:
    """The address to which forwards lead from an address."""
    word = machine.word(address)
    while word is not None and word.is_forward:
        address = word.payload
        word = machine.word(address)
    return address


def shown_word(machine: Machine, word: Word) -> Shown:
    return Link(final(machine, word.payload)) if word.is_reference else shown_words.content(word)


def cell_rest(machine: Machine, address: int, word: Word) -> Shown:
    """The cdr that a cell's code determines."""
    return Link(final(machine, address + 1)) if word.code == "next" else "nil"


def cons_fields(machine: Machine, region: Region, address: int) -> List[Shown]:
    word = region.words[address]
    rest = region.words.get(address + 1)
    after = shown_word(machine, rest) if word.code == "normal" and rest is not None else cell_rest(machine, address, word)
    return [shown_word(machine, word), after]


def length_at(machine: Machine, region: Region, address: int) -> int:
    """The number of words of the object that begins here, or of the old words of a relocated object, which begin with a forward."""
    word = region.words[address]
    if word.tag == "header":
        return 1 + word.payload % 2048
    if word.tag == "GC-FORWARD":
        return shown_words.moved_words(machine, region, address)
    return 2 if word.code == "normal" and not word.is_forward else 1


def beginnings(machine: Machine, region: Region) -> Iterator[int]:
    """The addresses in a region at which objects begin; forwards and the words of husks are skipped."""
    at, end = region.number * 4096, region.number * 4096 + region.used
    while at < end:
        word = region.words[at]
        if not word.is_forward and word.tag != "null":
            yield at
        at += length_at(machine, region, at)


def thing_at(machine: Machine, region: Region, address: int, areas: List[str], held: Set[int]) -> Thing:
    word = region.words[address]
    is_block = word.tag == "header"
    fields = [shown_word(machine, region.words[at]) for at in range(address + 1, address + 1 + word.payload % 2048)] if is_block else cons_fields(machine, region, address)
    name = f"at {address}" + (" (old)" if region.is_old else "")
    is_cell = not is_block and word.code != "normal"
    return Thing(address, name, areas[region.area], word.payload // 2048 if is_block else None, fields, is_cell, address in held)


def reached(machine: Machine, links: Dict[int, List[Shown]]) -> Set[int]:
    """The addresses to which registers lead."""
    work = [final(machine, word.payload) for word in machine.registers if word.is_reference]
    seen = set(work)
    while work:
        for value in links.get(work.pop(), []):
            if isinstance(value, Link) and value.key not in seen:
                seen.add(value.key)
                work.append(value.key)
    return seen


def of_machine(machine: Machine, areas: List[str]) -> Things:
    """The objects that the words show, reached or not."""
    places = [(region, at) for region in machine.regions for at in beginnings(machine, region)]
    fields = {at: thing_at(machine, region, at, areas, set()).fields for region, at in places}
    held = reached(machine, fields)
    registers = [(at, shown_word(machine, word)) for at, word in enumerate(machine.registers) if word.tag != "nil"]
    return Things(registers, [thing_at(machine, region, at, areas, held) for region, at in places])
