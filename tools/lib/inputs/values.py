"""The values of a world: references, objects, areas, sizes, and the world that they make.

Nil is None, a number is an int, and a reference is a Ref to an object by its number.
"""
from typing import Dict, List, Optional, Tuple, Union


class Ref:
    """A reference to the object with the number `n`."""
    __slots__ = ("n",)

    def __init__(self, n: int):
        self.n = n

    def __eq__(self, other: object) -> bool:
        return isinstance(other, Ref) and other.n == self.n

    def __hash__(self) -> int:
        return hash(("ref", self.n))

    def __repr__(self) -> str:
        return f"#{self.n}"


Value = Union[None, int, Ref]
Levels = Union[str, Tuple[int, ...]]     # those that a flip condemns: "full" for everything, or their numbers


class Obj:
    """An object of an area with its charge in words. A cons has no code, and its fields are car and cdr."""
    __slots__ = ("area", "charge", "code", "fields")

    def __init__(self, area: int, charge: int, code: Optional[int], fields: List[Value]):
        self.area, self.charge, self.code, self.fields = area, charge, code, fields

    def copy(self) -> "Obj":
        return Obj(self.area, self.charge, self.code, list(self.fields))


class Space:
    """The sizes of a machine. A capacity of 0 is never reached."""

    def __init__(self, regions: int, frames: int, registers: int, levels: int, rate: int):
        self.regions, self.frames, self.registers = regions, frames, registers
        self.levels, self.rate = levels, rate
        self.capacity = [0] * levels


class Area:
    """An area: its name, its kind (static, dynamic or ephemeral) and its quota in words."""

    def __init__(self, name: str, kind: str, quota: int):
        self.name, self.kind, self.quota = name, kind, quota


class World:
    """What the lines of a world say."""

    def __init__(self) -> None:
        self.format = 1
        self.space = Space(5, 32, 1, 1, 0)
        self.areas: List[Area] = []
        self.area_numbers: Dict[str, int] = {}
        self.objects: List[Obj] = []
        self.roots: Dict[int, Value] = {}
        self.dump_header: List[str] = []         # the header of its dumps, once known

    def add_area(self, area: Area) -> None:
        self.area_numbers[area.name] = len(self.areas)
        self.areas.append(area)

    def registers(self) -> List[Value]:
        return [self.roots.get(register) for register in range(self.space.registers)]

    def collects_itself(self) -> bool:
        return any(self.space.capacity)
