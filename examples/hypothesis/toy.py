"""A toy runtime: conses and blocks that are collected by copying, a few objects at a time, beside the program.

An address is a number that no other object ever has. While a collection runs, objects of the old space are copied
when the program reads a reference to one (`settled`, the read barrier) or when a scan does, and leave a forward. So
the program never gets an old address; only a register may have one, until it is read.
"""
from typing import Callable, Dict, List, NamedTuple, Optional, Union


class Reference(NamedTuple):
    address: int


class Forward(NamedTuple):
    address: int


class Thing:
    """An object: a cons has no code, and the fields car and cdr."""

    def __init__(self, code: Optional[int], fields: "List[Value]"):
        self.code, self.fields = code, fields


Value = Union[None, int, Reference]


class Toy:
    """The runtime: registers, a space of objects, and the old space while a collection runs. With the bug that `fault` switches on, an object
    that is copied leaves no forward, so a second reference to it gets a second copy."""

    def __init__(self, registers: int, fault: bool = False):
        self.registers: List[Value] = [None] * registers
        self.space: Dict[int, Thing] = {}
        self.old: Dict[int, Union[Thing, Forward]] = {}
        self.to_scan: List[int] = []
        self.is_running = False
        self.made = 0
        self.fault = fault

    # objects
    def make_thing(self, code: Optional[int], fields: List[Value]) -> Reference:
        self.made += 1
        self.space[self.made] = Thing(code, fields)
        if self.is_running:
            self.to_scan.append(self.made)
        return Reference(self.made)

    def settled(self, value: Value) -> Value:
        """The value with the current address of its object; copies the object out of the old space."""
        if not isinstance(value, Reference) or value.address not in self.old:
            return value
        found = self.old[value.address]
        if isinstance(found, Forward):
            return Reference(found.address)
        copy = self.make_thing(found.code, found.fields)
        if not self.fault:
            self.old[value.address] = Forward(copy.address)
        return copy

    def register(self, at: int) -> Value:
        self.registers[at] = self.settled(self.registers[at])
        return self.registers[at]

    def thing(self, at: int, is_cons: bool) -> Optional[Thing]:
        """The cons, or the block, that a register holds."""
        value = self.register(at)
        thing = self.space[value.address] if isinstance(value, Reference) else None
        return thing if thing is not None and (thing.code is None) == is_cons else None

    def shown(self, value: Value) -> str:
        if not isinstance(value, Reference):
            return "nil" if value is None else str(value)
        thing = self.space[value.address]
        return "cons" if thing.code is None else f"block {thing.code} {len(thing.fields)}"

    def read(self, into: int, thing: Optional[Thing], field: int) -> str:
        if thing is None:
            return "wrong-type"
        if field >= len(thing.fields):
            return f"no-field {len(thing.fields)}"
        thing.fields[field] = self.registers[into] = self.settled(thing.fields[field])
        return self.shown(self.registers[into])

    def write(self, thing: Optional[Thing], field: int, value: Value) -> str:
        if thing is None:
            return "wrong-type"
        if field >= len(thing.fields):
            return f"no-field {len(thing.fields)}"
        thing.fields[field] = value
        return "ok"

    # commands, each of which answers its reply
    def answer(self, line: str) -> str:
        head, *words = line.replace("flip full", "flip").split(" ")
        command: Callable[..., str] = getattr(self, "do_" + head)
        return command(*(int(word) for word in words if word not in ("work", "nil")))

    def do_set(self, into: int, number: Optional[int] = None) -> str:
        self.registers[into] = number
        return "ok"

    def do_move(self, into: int, source: int) -> str:
        self.registers[into] = self.register(source)
        return "ok"

    def do_cons(self, into: int, car: int, cdr: int) -> str:
        self.registers[into] = self.make_thing(None, [self.register(car), self.register(cdr)])
        return "ok"

    def do_list(self, into: int, *items: int) -> str:
        values, rest = [self.register(item) for item in items], None
        for value in reversed(values):
            rest = self.make_thing(None, [value, rest])
        self.registers[into] = rest
        return "ok"

    def do_make(self, into: int, code: int, count: int) -> str:
        self.registers[into] = self.make_thing(code, [None] * count)
        return "ok"

    def do_car(self, into: int, source: int) -> str:
        return self.read(into, self.thing(source, True), 0)

    def do_cdr(self, into: int, source: int) -> str:
        return self.read(into, self.thing(source, True), 1)

    def do_get(self, into: int, source: int, field: int) -> str:
        return self.read(into, self.thing(source, False), field)

    def do_rplaca(self, cons: int, source: int) -> str:
        return self.write(self.thing(cons, True), 0, self.register(source))

    def do_rplacd(self, cons: int, source: int) -> str:
        return self.write(self.thing(cons, True), 1, self.register(source))

    def do_put(self, block: int, field: int, source: int) -> str:
        return self.write(self.thing(block, False), field, self.register(source))

    def do_size(self, block: int) -> str:
        thing = self.thing(block, False)
        return "wrong-type" if thing is None else str(len(thing.fields))

    def do_eq(self, one: int, other: int) -> str:
        return "t" if self.register(one) == self.register(other) else "nil"

    # collections
    def do_flip(self) -> str:
        if self.is_running:
            return "busy"
        self.old, self.space, self.to_scan, self.is_running = dict(self.space), {}, [], True
        return "flipped 0"

    def do_scavenge(self, count: int) -> str:
        """Scans the registers, and then at most this number of objects."""
        if not self.is_running:
            return "not-flipped"
        for at in range(len(self.registers)):
            self.register(at)
        while self.to_scan and count > 0:
            thing = self.space[self.to_scan.pop()]
            thing.fields = [self.settled(value) for value in thing.fields]
            count -= 1
        return "more" if self.to_scan else "done"

    def do_reclaim(self) -> str:
        if not self.is_running:
            return "not-flipped"
        if self.to_scan or any(self.settled(value) != value for value in self.registers):
            return "not-done"
        self.old, self.is_running = {}, False
        return "reclaimed"
