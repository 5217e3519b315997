"""The lines of a world: which one may be next, what each means, and why one is refused."""
from typing import Callable, Dict, List

from .line_kinds import WORLD, LineKind, capacity_line, read_words
from .refusal import NO_ROOM, Refused
from .spelling import is_well_formed
from .values import Area, Obj, Ref, Space, Value, World

AREAS, CAPACITY, OBJECTS, ROOTS = 3, 4, 5, 6
PART = {"area": AREAS, "capacity": CAPACITY, "cons": OBJECTS, "block": OBJECTS, "run": OBJECTS, "root": ROOTS, "trace": ROOTS}
FORMAT_2 = ("capacity", "run")


class WorldLines:
    """A world that is read line by line, up to `trace`. `part` is how far it is; `named` is each object that a line
    refers to, and `closed` is set once no further object line is allowed."""

    def __init__(self) -> None:
        self.world = World()
        self.part = AREAS
        self.charged: List[int] = []
        self.named: List[int] = []
        self.closed = False
        self.is_done = False

    def read(self, n: int, line: str) -> None:
        """Takes line n, or raises Refused."""
        if n == 1:
            self.take_format(line)
            return
        if not is_well_formed(line):
            raise Refused("bad line")
        words = line.split(" ")
        self.test_order(n, words[0])
        self.test_references(words[0])
        if words[0] == "area" and len(self.world.areas) >= 16:
            raise Refused("too many areas")
        said = read_words(self.kind_of(words[0]), words, self.world)
        TAKE[words[0]](self, *said)

    def kind_of(self, head: str) -> LineKind:
        return capacity_line(self.world) if head == "capacity" else WORLD[head]

    def test_order(self, n: int, head: str) -> None:
        """Refuses a line whose first word isn't allowed here."""
        if n in (2, 3):
            expected = "space" if n == 2 else "area"
            if head != expected:
                raise Refused(f"{expected} expected", place=0)
            return
        if self.world.format == 2 and self.part == AREAS and head not in ("area", "capacity"):
            raise Refused("capacity expected", place=0)
        known = head in PART and (self.world.format == 2 or head not in FORMAT_2)
        if not known or PART[head] < self.part or head == "capacity" and self.part != AREAS:
            raise Refused("unexpected line", place=0)

    def test_references(self, head: str) -> None:
        """At the first line after the objects: refuses it if an object that was named doesn't exist."""
        if head in ("root", "trace") and not self.closed:
            missing = [k for k in self.named if k >= len(self.world.objects)]
            if missing:
                raise Refused(f"no object {min(missing)}")

    # ---------------------------------------------------- what a line says

    def take_format(self, line: str) -> None:
        if line not in ("lispm-world 1", "lispm-world 2"):
            raise Refused("not a world")
        self.world.format = int(line[-1])

    def take_space(self, *sizes: int) -> None:
        self.world.space = Space(*sizes)

    def take_area(self, name: str, kind: str, quota: int) -> None:
        quotas = [area.quota for area in self.world.areas] + [quota]
        space = self.world.space
        if sum(-(-quota // 1024) + 2 * (space.levels + 1) for quota in quotas) > space.regions:
            raise Refused("space too small", NO_ROOM)
        self.world.add_area(Area(name, kind, quota))
        self.charged.append(0)

    def take_capacity(self, *capacities: int) -> None:
        self.world.space.capacity = list(capacities)
        self.part = CAPACITY

    def take_cons(self, area: int, car: Value, cdr: Value) -> None:
        self.charge(area, 2, [car, cdr])
        self.world.objects.append(Obj(area, 2, None, [car, cdr]))

    def take_block(self, area: int, code: int, *fields: Value) -> None:
        self.charge(area, 1 + len(fields), list(fields))
        self.world.objects.append(Obj(area, 1 + len(fields), code, list(fields)))

    def take_run(self, area: int, *cars: Value) -> None:
        self.charge(area, 3 * len(cars), list(cars))
        self.world.objects += cells(area, list(cars), len(self.world.objects))

    def charge(self, area: int, wanted: int, values: List[Value]) -> None:
        """Charges an area for an object line with these values, if its quota allows."""
        charged, rule = self.charged[area], self.world.areas[area]
        self.part = OBJECTS
        if charged + wanted > rule.quota:
            raise Refused(f"exhausted {rule.name} {charged} {wanted} {rule.quota}", NO_ROOM)
        self.charged[area] += wanted
        self.named += [value.n for value in values if isinstance(value, Ref)]

    def take_root(self, register: int, value: Value) -> None:
        self.part, self.closed = ROOTS, True
        self.world.roots[register] = value

    def take_trace(self) -> None:
        self.is_done = True


def cells(area: int, cars: List[Value], first: int) -> List[Obj]:
    """The conses of a list, of charge 3, whose numbers follow one another from `first` on."""
    last = first + len(cars) - 1
    return [Obj(area, 3, None, [car, Ref(n + 1) if n < last else None]) for n, car in enumerate(cars, first)]


TAKE: Dict[str, Callable[..., None]] = {
    "space": WorldLines.take_space, "area": WorldLines.take_area, "capacity": WorldLines.take_capacity,
    "cons": WorldLines.take_cons, "block": WorldLines.take_block, "run": WorldLines.take_run,
    "root": WorldLines.take_root, "trace": WorldLines.take_trace,
}
