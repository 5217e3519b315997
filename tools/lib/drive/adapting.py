"""A driver in Python over any runtime: what reads inputs, runs commands and writes dumps. The runtime is a Heap.

    from lib.drive.adapting import Heap, run
    run(MyHeap())

Each reply is written before the next line is read. A refused input ends as docs/FORMATS.md says.
"""
import sys
from typing import Any, Callable, Dict, Hashable, List, Optional

from ..inputs import dumping
from ..inputs.graph import Graph, grown_length
from ..inputs.refusal import Refused
from ..inputs.values import Obj, Ref, Value, World
from ..inputs.verdict import Command, Reading


class Heap:
    """What a driver wants of a runtime. An object is anything that isn't None and no int. Parts of a cons are 0, the car,
    and 1, the cdr; the fields of a block count from 0. Nil is None. This one never frees anything."""

    def cons(self, area: int, is_cell: bool, car: Any, cdr: Any) -> Any:
        raise NotImplementedError

    def block(self, area: int, code: int, fields: int) -> Any:
        """A block whose fields are nil."""
        raise NotImplementedError

    def look(self, item: Any) -> Obj:
        """An object with the area, the charge, the code (None for a cons) and the parts."""
        raise NotImplementedError

    def read(self, item: Any, part: int) -> Any:
        raise NotImplementedError

    def write(self, item: Any, part: int, value: Any) -> None:
        raise NotImplementedError

    def identity(self, item: Any) -> Hashable:
        """Equal for two references to one object, and for no others."""
        return id(item)

    # For the grade identity what follows will do; it collects nothing.

    def flip(self, registers: List[Any], what: object) -> int:
        """Begins a collection of everything, "full", or of some levels; answers the pages to scan."""
        return 0

    def scan(self, units: int, is_last: bool) -> bool:
        """Does this much work of a collection, all of it if this is the last; answers whether it is finished."""
        return True

    def reclaim(self) -> None:
        """A collection that is finished ends."""

    def charged(self, area: int) -> int:
        """For the grade space: the words that an area is charged."""
        return 0

    def husks(self, area: int) -> int:
        """For the grade space: the part of that which is charged for husks, the old words of grown blocks."""
        return 0

    def grow(self, item: Any, fields: int) -> None:
        """For the grade space: a block gets more fields, and stays the same object."""
        raise NotImplementedError


class Driver:
    """The registers, and a collection that runs: the work owed and paid, and whether its scan has finished."""

    def __init__(self, heap: Heap, world: World):
        self.heap, self.world, self.space = heap, world, world.space
        self.runs = self.over = False
        self.owed = self.paid = 0
        made = self.load(world.objects)
        self.registers = [made[value.n] if isinstance(value, Ref) else value for value in world.registers()]

    def load(self, objects: List[Obj]) -> List[Any]:
        made = [self.heap.cons(one.area, one.charge == 3, None, None) if one.code is None
                else self.heap.block(one.area, one.code, len(one.fields)) for one in objects]
        for item, one in zip(made, objects):
            for part, value in enumerate(one.fields):
                self.heap.write(item, part, made[value.n] if isinstance(value, Ref) else value)
        return made

    # ------------------------------------------------------------ objects

    def cons_in(self, register: int) -> Any:
        item = self.registers[register]
        return item if is_object(item) and self.heap.look(item).code is None else None

    def block_in(self, register: int) -> Any:
        item = self.registers[register]
        return item if is_object(item) and self.heap.look(item).code is not None else None

    def fetch(self, to: int, item: Any, part: int) -> str:
        value = self.registers[to] = self.heap.read(item, part)
        if not is_object(value):
            return "nil" if value is None else str(value)
        look = self.heap.look(value)
        return "cons" if look.code is None else f"block {look.code} {len(look.fields)}"

    def graph(self) -> Graph:
        """The objects that registers lead to, for a dump."""
        names: Dict[Hashable, int] = {}
        items: List[Any] = []

        def named(value: Any) -> Value:
            if not is_object(value):
                return value
            name = names.setdefault(self.heap.identity(value), len(items))
            if name == len(items):
                items.append(value)
            return Ref(name)

        graph = Graph(self.world)
        graph.registers, graph.objects = [named(value) for value in self.registers], []
        for item in items:                              # which grows
            look = self.heap.look(item)
            graph.objects.append(Obj(look.area, look.charge, look.code, [named(value) for value in look.fields]))
        return graph

    # --------------------------------------------------------- allocations

    def allocate(self, area: int, charge: int, make: Callable[[], Any], to: Optional[int]) -> str:
        rule, charged = self.world.areas[area], self.heap.charged(area)
        if charged + charge > rule.quota:
            return f"exhausted {rule.name} {charged} {charge} {rule.quota}"
        self.pay(charge, self.space.rate * charge)
        item = make()
        if to is not None:
            self.registers[to] = item
        return "ok"

    def pay(self, owed: int, paid: int) -> None:
        if self.runs:
            self.owed, self.paid = self.owed + owed, self.paid + paid
            self.over = self.over or self.heap.scan(paid, self.paid >= self.owed)


def is_object(value: Any) -> bool:
    return value is not None and not isinstance(value, int)


# ------------------------------------------------------------------ commands

def set_register(driver: Driver, to: int, value: Any) -> str:
    driver.registers[to] = value
    return "ok"


def move(driver: Driver, to: int, source: int) -> str:
    return set_register(driver, to, driver.registers[source])


def cons(driver: Driver, to: int, area: int, car: int, cdr: int) -> str:
    values = driver.registers[car], driver.registers[cdr]
    return driver.allocate(area, 2, lambda: driver.heap.cons(area, False, *values), to)


def list_of(driver: Driver, to: int, area: int, *items: int) -> str:
    values = [driver.registers[item] for item in items]

    def make() -> Any:
        rest = None
        for value in reversed(values):
            rest = driver.heap.cons(area, True, value, rest)
        return rest
    return driver.allocate(area, 3 * len(items), make, to)


def make_block(driver: Driver, to: int, area: int, code: int, fields: int) -> str:
    return driver.allocate(area, fields + 1, lambda: driver.heap.block(area, code, fields), to)


def grow(driver: Driver, target: int, wanted: int) -> str:
    block = driver.block_in(target)
    look = driver.heap.look(block) if block is not None else None
    if look is None or wanted <= len(look.fields):
        return "wrong-type" if look is None else "ok"
    fields = grown_length(look, wanted)
    return driver.allocate(look.area, fields + 1, lambda: driver.heap.grow(block, fields), None)


def fetch_part(part: int) -> Callable[..., str]:
    def fetch(driver: Driver, to: int, source: int) -> str:
        item = driver.cons_in(source)
        return "wrong-type" if item is None else driver.fetch(to, item, part)
    return fetch


def store_part(part: int) -> Callable[..., str]:
    def store(driver: Driver, target: int, source: int) -> str:
        item = driver.cons_in(target)
        if item is None:
            return "wrong-type"
        driver.heap.write(item, part, driver.registers[source])
        driver.owed += 2 * part
        return "ok"
    return store


def get(driver: Driver, to: int, source: int, index: int) -> str:
    return with_field(driver, source, index, lambda block: driver.fetch(to, block, index))


def put(driver: Driver, target: int, index: int, source: int) -> str:
    def store(block: Any) -> str:
        driver.heap.write(block, index, driver.registers[source])
        return "ok"
    return with_field(driver, target, index, store)


def with_field(driver: Driver, register: int, index: int, action: Callable[[Any], str]) -> str:
    block = driver.block_in(register)
    if block is None:
        return "wrong-type"
    fields = len(driver.heap.look(block).fields)
    return action(block) if index < fields else f"no-field {fields}"


def size(driver: Driver, register: int) -> str:
    block = driver.block_in(register)
    return "wrong-type" if block is None else str(len(driver.heap.look(block).fields))


def eq(driver: Driver, one: int, other: int) -> str:
    left, right = driver.registers[one], driver.registers[other]
    if is_object(left) and is_object(right):
        return "t" if driver.heap.identity(left) == driver.heap.identity(right) else "nil"
    return "t" if not is_object(left) and not is_object(right) and left == right else "nil"


def flip(driver: Driver, what: object) -> str:
    if driver.runs:
        return "busy"
    heap = driver.heap
    condemned = sum(heap.charged(at) - heap.husks(at) for at, area in enumerate(driver.world.areas) if area.kind != "static")
    pages = heap.flip(driver.registers, what)
    driver.runs, driver.over, driver.paid = True, False, 0
    driver.owed = driver.space.registers + 256 * pages + condemned
    return f"flipped {pages}"


def scavenge(driver: Driver, units: int) -> str:
    if not driver.runs:
        return "not-flipped"
    driver.pay(0, units)
    return "done" if driver.over else "more"


def reclaim(driver: Driver) -> str:
    if not driver.over:
        return "not-done" if driver.runs else "not-flipped"
    driver.heap.reclaim()
    driver.runs = driver.over = False
    return "reclaimed"


def page_out(_: Driver, __: int) -> str:
    return "ok"


def stats(driver: Driver) -> str:
    areas = enumerate(driver.world.areas)
    return "\n".join(f"area {area.name} {driver.heap.charged(at)} {area.quota}" for at, area in areas)


def dump(driver: Driver) -> str:
    return "\n".join(dumping.lines_of(driver.world, driver.graph()))


COMMANDS: Dict[str, Callable[..., str]] = {
    "set": set_register, "move": move, "cons": cons, "list": list_of, "make": make_block, "grow": grow,
    "car": fetch_part(0), "cdr": fetch_part(1), "rplaca": store_part(0), "rplacd": store_part(1), "get": get, "put": put,
    "size": size, "eq": eq, "flip": flip, "scavenge": scavenge, "reclaim": reclaim, "page-out": page_out, "stats": stats,
    "dump": dump}


def answer(driver: Driver, command: Command) -> str:
    return COMMANDS[command[0]](driver, *command[1:])


def run(heap: Heap) -> None:
    """Answers the input on standard input, and ends the process."""
    reading, driver, n = Reading(1 << 40), None, 0
    try:
        for n, line in enumerate(sys.stdin.buffer, 1):
            before = len(reading.commands)
            reading.take(n, line.decode("latin-1").rstrip("\n"), line.endswith(b"\n"))
            if driver is None and reading.world_lines.is_done:
                driver = Driver(heap, reading.world_lines.world)
            if driver is not None and len(reading.commands) > before:
                print(answer(driver, reading.commands.pop()), flush=True)
                reading.lines.pop()
        if not reading.has_ended:
            n += 1
            raise Refused("no end" if n > 1 else "not a world")
    except Refused as refused:
        print(f"error line {n}: {refused.reason}", flush=True)
        sys.exit(refused.status)
    sys.exit(0)
