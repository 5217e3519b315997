"""The graph of objects that is never moved and never collected, and what a command does to it.

An effect is a function of the graph and a command. It answers the reply line; an allocation is taken to
fit, so that it answers `ok`. Object n has the name n.
"""
from typing import Callable, Dict, List, Optional, Tuple

from .values import Obj, Ref, Value, World
from .verdict import Command
from .world_lines import cells

ALLOCATING = {"cons", "list", "make", "grow"}
MOST_FIELDS = 2047


class Graph:
    """Registers and objects."""

    def __init__(self, world: World):
        self.registers: List[Value] = world.registers()
        self.objects: List[Obj] = [one.copy() for one in world.objects]

    def cons_in(self, register: int) -> Optional[Obj]:
        value = self.registers[register]
        found = self.objects[value.n] if isinstance(value, Ref) else None
        return found if found is not None and found.code is None else None

    def block_in(self, register: int) -> Optional[Obj]:
        value = self.registers[register]
        found = self.objects[value.n] if isinstance(value, Ref) else None
        return found if found is not None and found.code is not None else None

    def fetch(self, register: int, value: Value) -> str:
        """Puts a value into a register and shows it."""
        self.registers[register] = value
        if value is None:
            return "nil"
        if not isinstance(value, Ref):
            return str(value)
        found = self.objects[value.n]
        return "cons" if found.code is None else f"block {found.code} {len(found.fields)}"

    def step(self, command: Command) -> str:
        """The effect and the reply of a command of a program."""
        return EFFECTS[command[0]](self, command)

    def allocation(self, command: Command) -> Optional[Tuple[int, int]]:
        """The area and the charge that the command wants here, if it allocates."""
        head = command[0]
        if head == "cons":
            return command[2], 2
        if head == "list":
            return command[2], 3 * (len(command) - 3)
        if head == "make":
            return command[2], command[4] + 1
        block = self.block_in(command[1]) if head == "grow" else None
        if block is not None and command[2] > len(block.fields):
            return block.area, grown_length(block, command[2]) + 1
        return None


def grown_length(block: Obj, wanted: int) -> int:
    return max(wanted, min(2 * len(block.fields) + 1, MOST_FIELDS))


# -------------------------------------------------------------------- effects

def set_register(graph: Graph, command: Command) -> str:
    _, register, value = command
    graph.registers[register] = value
    return "ok"


def move(graph: Graph, command: Command) -> str:
    _, register, source = command
    graph.registers[register] = graph.registers[source]
    return "ok"


def cons(graph: Graph, command: Command) -> str:
    _, register, area, car_of, cdr_of = command
    registers, objects = graph.registers, graph.objects
    made = Obj(area, 2, None, [registers[car_of], registers[cdr_of]])
    registers[register] = Ref(len(objects))
    objects.append(made)
    return "ok"


def list_of(graph: Graph, command: Command) -> str:
    _, register, area, *items = command
    registers, objects = graph.registers, graph.objects
    made = cells(area, [registers[item] for item in items], len(objects))
    registers[register] = Ref(len(objects))
    objects += made
    return "ok"


def make(graph: Graph, command: Command) -> str:
    _, register, area, code, length = command
    graph.registers[register] = Ref(len(graph.objects))
    graph.objects.append(Obj(area, length + 1, code, [None] * length))
    return "ok"


def grow(graph: Graph, command: Command) -> str:
    _, register, wanted = command
    block = graph.block_in(register)
    if block is None:
        return "wrong-type"
    if wanted > len(block.fields):
        length = grown_length(block, wanted)
        block.fields += [None] * (length - len(block.fields))
        block.charge = length + 1
    return "ok"


def car(graph: Graph, command: Command) -> str:
    _, register, source = command
    value = graph.registers[source]
    found = graph.objects[value.n] if isinstance(value, Ref) else None
    if found is None or found.code is not None:
        return "wrong-type"
    return graph.fetch(register, found.fields[0])


def cdr(graph: Graph, command: Command) -> str:
    _, register, source = command
    value = graph.registers[source]
    found = graph.objects[value.n] if isinstance(value, Ref) else None
    if found is None or found.code is not None:
        return "wrong-type"
    return graph.fetch(register, found.fields[1])


def rplaca(graph: Graph, command: Command) -> str:
    _, target, source = command
    found = graph.cons_in(target)
    if found is None:
        return "wrong-type"
    found.fields[0] = graph.registers[source]
    return "ok"


def rplacd(graph: Graph, command: Command) -> str:
    _, target, source = command
    found = graph.cons_in(target)
    if found is None:
        return "wrong-type"
    found.fields[1] = graph.registers[source]
    return "ok"


def get(graph: Graph, command: Command) -> str:
    _, register, source, index = command
    block = graph.block_in(source)
    if block is None:
        return "wrong-type"
    if index >= len(block.fields):
        return f"no-field {len(block.fields)}"
    return graph.fetch(register, block.fields[index])


def put(graph: Graph, command: Command) -> str:
    _, target, index, source = command
    block = graph.block_in(target)
    if block is None:
        return "wrong-type"
    if index >= len(block.fields):
        return f"no-field {len(block.fields)}"
    block.fields[index] = graph.registers[source]
    return "ok"


def size(graph: Graph, command: Command) -> str:
    block = graph.block_in(command[1])
    return "wrong-type" if block is None else str(len(block.fields))


def eq(graph: Graph, command: Command) -> str:
    _, one, other = command
    left, right = graph.registers[one], graph.registers[other]
    return "t" if left is right or left == right else "nil"


EFFECTS: Dict[str, Callable[[Graph, Command], str]] = {
    "set": set_register, "move": move, "cons": cons, "list": list_of, "make": make, "grow": grow,
    "car": car, "cdr": cdr, "rplaca": rplaca, "rplacd": rplacd, "get": get, "put": put, "size": size, "eq": eq,
}
