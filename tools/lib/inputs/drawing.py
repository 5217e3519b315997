"""Inputs that depend on a number: the generated input of `lispm exercise` as text, and random (wide) inputs by grade.

The same number gives the same text on every machine and with every version of Python: both kinds use the
random number generators in this file.
"""
from typing import Callable, Dict, Iterator, List, NamedTuple, Optional, Sequence, Tuple, TypeVar

from .. import tool
from .grades import GRADES

KINDS = ("wide", "exercise")
SIZES = ("small", "large", "huge")
COUNT = 400              # commands, by default
COUNTS = {"small": COUNT, "large": 2000, "huge": 100000}
MOST_NUMBER = 4294967295
MOST_COUNT = {"wide": 100000, "exercise": 1000000}
DUMP_EVERY = {"small": 40, "large": 500, "huge": 10000}
T = TypeVar("T")
Weights = Sequence[Tuple[str, int]]


class What(NamedTuple):
    """What is generated: the kind, the number of commands (by size if it is None), the grade of a wide input, the commands
    between two dumps, the size of a wide input, the weights of its commands that aren't the usual ones, and of how many
    numbers one has an input with a changed line (0: none)."""
    kind: str = "wide"
    commands: Optional[int] = COUNT
    grade: str = "phases"
    every: Optional[int] = None
    size: str = "small"
    weights: Weights = ()
    change_every: int = 0


def drawn(number: int, what: What) -> bytes:
    """The input that is made from this number."""
    usual = DUMP_EVERY[what.size] if what.kind == "wide" else 0
    every = usual if what.every is None else what.every
    count = COUNTS[what.size] if what.commands is None else what.commands
    check_range("--number", number, MOST_NUMBER)
    check_range("--count", count, MOST_COUNT[what.kind])
    check_range("--dump-every", every, MOST_NUMBER)
    if what.kind == "exercise":
        return exercise(number, count, every).encode()
    text = wide(number, what, count, every)
    if what.change_every and number % what.change_every == 0:
        from .changing import with_line_changed
        text = with_line_changed(text, number)
    return text.encode()


def read_weights(path: str) -> Weights:
    """The weights of a file: a name and a number in each line; what follows a # is a comment."""
    found = []
    for n, line in enumerate(tool.read(path).decode("latin-1").split("\n"), 1):
        words = line.partition("#")[0].split()
        if not words:
            continue
        if len(words) != 2 or not words[1].isdigit() or int(words[1]) > 1000:
            raise tool.ToolError(f"{path}: line {n}: a name and a weight, 0 to 1000, are wanted")
        found.append((words[0], int(words[1])))
    return tuple(found)


def check_range(name: str, number: int, most: int) -> None:
    if not 0 <= number <= most:
        raise tool.ToolError(f"{name} is 0 to {most}")


def with_dumps(commands: Iterator[str], every: int) -> Iterator[str]:
    """The commands, with a `dump` after every `every` commands; without dumps if that is 0."""
    for at, command in enumerate(commands, 1):
        yield command
        if every and at % every == 0:
            yield "dump"


def text_of(lines: Iterator[str]) -> str:
    return "".join(line + "\n" for line in lines)


# ----------------------------------------------------------- the generated input

EXERCISE_WORLD = ["lispm-world 1", "space 64 64 16 3 4", "area perm static 4000", "area work dynamic 20000",
                  "area temp ephemeral 12000", "trace"]
FLIPS = ("flip 1", "flip 1", "flip 1,2", "flip full")


def sixteenths(number: int) -> Iterator[int]:
    """Numbers below 16: the program's own generator."""
    state = number
    while True:
        state = (state * 1664525 + 1013904223) % 4294967296
        yield state // 65536 % 16


def drawn_command(r: int, s: int, t: int, k: int) -> str:
    """The command that four numbers make."""
    if k == 0:
        return f"set {r} {s}"
    if k <= 6:
        return f"cons {r} {('temp', 'work', 'perm')[max(0, k - 4)]} {s} {t}"
    return (f"list {r} temp {s} {t} {s}", f"make {r} temp 7 4", f"put {r} {s % 5} {t}", f"get {r} {s} {t % 5}",
            f"car {r} {s}", f"cdr {r} {s}", f"rplaca {r} {s}", f"rplacd {r} {s}", f"eq {r} {s}")[k - 7]


def exercise_commands(number: int, count: int) -> Iterator[str]:
    draw = sixteenths(number)
    for i in range(count):
        fixed = {700: FLIPS[i // 1000 % 4], 980: "scavenge 4294967295", 990: "reclaim", 995: "page-out 20"}
        yield fixed.get(i % 1000) or drawn_command(next(draw), next(draw), next(draw), next(draw))


def exercise(number: int, count: int, dump_every: int = 0) -> str:
    """The input that `lispm exercise --number NUMBER --count COUNT` runs."""
    commands = with_dumps(exercise_commands(number, count), dump_every)
    return text_of(line for part in (EXERCISE_WORLD, commands, ("stats", "end")) for line in part)


# -------------------------------------------------------------- wide inputs

class Draw:
    """The generator SplitMix64."""

    def __init__(self, number: int):
        self.state = number

    def below(self, count: int) -> int:
        """A number below this one. Most of the time of drawing is spent here."""
        self.state = state = self.state + 0x9E3779B97F4A7C15 & 0xFFFFFFFFFFFFFFFF
        mixed = (state ^ state >> 30) * 0xBF58476D1CE4E5B9 & 0xFFFFFFFFFFFFFFFF
        mixed = (mixed ^ mixed >> 27) * 0x94D049BB133111EB & 0xFFFFFFFFFFFFFFFF
        return (mixed ^ mixed >> 31) * count >> 64

    def word(self) -> int:
        """64 bits."""
        return self.below(1 << 64)

    def between(self, low: int, high: int) -> int:
        """A number from low to high, both among them."""
        return low + self.below(high - low + 1)

    def one_in(self, count: int) -> bool:
        return self.below(count) == 0

    def choice(self, items: Sequence[T]) -> T:
        return items[self.below(len(items))]

    def some(self, items: Sequence[T]) -> List[T]:
        """A part of the items that isn't empty, in their order."""
        taken = self.between(1, 2 ** len(items) - 1)
        return [item for at, item in enumerate(items) if taken >> at & 1]


class World:
    """The world of a wide input: sizes, areas and objects. Quotas may wait until the trace is drawn."""
    REGISTERS: Sequence[int] = (3, 4, 8, 8, 12, 16)
    QUOTAS: Sequence[int] = (0, 12, 60, 200, 600, 600, 3000, 3000)
    CAPACITIES: Sequence[int] = (0, 0, 6, 20, 60, 200)

    def __init__(self, draw: Draw, grade: str):
        self.draw, self.grade = draw, grade
        self.levels = draw.choice((1, 2, 2, 3, 3, 4, 6))
        self.registers = draw.choice(self.REGISTERS)
        self.rate = draw.choice((0, 1, 2, 2, 4, 4, 16)) if grade == "phases" else 0
        self.format = draw.choice((1, 2))
        kinds = ("static", "dynamic", "ephemeral", "ephemeral")
        self.kinds = [draw.choice(kinds) for _ in range(draw.between(1, 3))]
        self.quotas = [draw.choice(self.QUOTAS) for _ in self.kinds]
        self.charged = [0] * len(self.kinds)
        self.objects = 0
        self.lines_behind = self.object_lines() + self.root_lines()

    def object_lines(self) -> List[str]:
        return [self.object_line(*body) for body in self.drawn_bodies()]

    def drawn_bodies(self) -> List[Tuple[str, int, int]]:
        """Objects that fit their areas: the word, the area, the number of values."""
        bodies = []
        for _ in range(self.draw.between(0, 8)):
            kind = self.draw.choice(("cons", "block") + ("run",) * (self.format == 2))
            area = self.draw.below(len(self.kinds))
            count = 2 if kind == "cons" else self.draw.between(1, 5)
            charge = {"cons": 2, "block": count + 1, "run": 3 * count}[kind]
            if self.charged[area] + charge <= self.quotas[area]:
                self.charged[area] += charge
                self.objects += count if kind == "run" else 1
                bodies.append((kind, area, count))
        return bodies

    def value(self) -> str:
        kind = self.draw.below(5)
        if kind >= 2 and self.objects:
            return f"#{self.draw.below(self.objects)}"
        return str(self.draw.between(-9, 9)) if kind == 1 else "nil"

    def object_line(self, kind: str, area: int, count: int) -> str:
        code = [str(self.draw.between(0, 99))] * (kind == "block")
        return " ".join([kind, f"a{area}", *code, *(self.value() for _ in range(count))])

    def root_lines(self) -> List[str]:
        return [f"root {register} {self.value()}" for register in range(self.registers) if self.draw.one_in(2)]

    def make_room(self, wanted: Sequence[int]) -> None:
        """Quotas that refuse none of the wanted charges."""
        self.quotas = [-(-(had + more) // 1024) * 1024 for had, more in zip(self.charged, wanted)]

    def lines(self) -> List[str]:
        room = sum(-(-quota // 1024) + 2 * (self.levels + 1) for quota in self.quotas)
        regions = max(5, room + self.draw.below(3))
        areas = [f"area a{at} {kind} {quota}" for at, (kind, quota) in enumerate(zip(self.kinds, self.quotas))]
        return [f"lispm-world {self.format}", f"space {regions} 32 {self.registers} {self.levels} {self.rate}",
                *areas, *self.capacities(), *self.lines_behind, "trace"]

    def capacities(self) -> List[str]:
        """The line of capacities: levels collect by themselves in the grade of phases alone."""
        sizes = self.CAPACITIES if self.grade == "phases" else (0,)
        return ["capacity " + " ".join(str(self.draw.choice(sizes)) for _ in range(self.levels))] * (self.format == 2)


class Trace:
    """Commands that fit together: registers are guessed to hold what was put there, and collections run to their end."""
    WEIGHTS: Dict[str, int] = {"set": 4, "move": 3, "cons": 14, "list": 5, "make": 6, "part": 14, "store-part": 14,
                               "get": 7, "put": 8, "size": 1, "eq": 7, "stray": 2}
    WEIGHTS_BEYOND_IDENTITY: Dict[str, int] = {"stats": 2, "grow": 4, "page-out": 2}
    COLLECTION_EVERY = 12       # commands, on the average
    PAUSES: Sequence[int] = (2, 3, 6, 12, 30)
    DUMP_ONE_IN = 2             # collections

    def __init__(self, draw: Draw, world: World, what: What):
        self.draw, self.world, self.grade, self.dumps = draw, world, what.grade, what.every != 0
        self.kinds: List[str] = ["any"] * world.registers
        self.wanted = [0] * len(world.kinds)
        self.left: Optional[int] = None          # commands to the end of a collection, while one is thought to run
        self.table = self.weighed(what.weights)

    def weighed(self, changed: Weights) -> List[Callable[[], str]]:
        """Each kind of command as often as its weight says."""
        usual, beyond = self.WEIGHTS, self.WEIGHTS_BEYOND_IDENTITY
        for name, _ in changed:
            if name not in usual and name not in beyond:
                raise tool.ToolError(f"{name}: no weight of this size has this name; they are {', '.join([*usual, *beyond])}")
        weights = {**usual, **(beyond if self.grade != "identity" else {})}
        weights.update((name, weight) for name, weight in changed if name in weights)
        table = [getattr(self, name.replace("-", "_")) for name, weight in weights.items() for _ in range(weight)]
        if not table:
            raise tool.ToolError("all weights are 0")
        return table

    def commands(self, count: int) -> Iterator[str]:
        left = count
        while left:
            command = self.collection_step() or self.next_command()
            if command != "dump" or self.dumps:
                left -= 1
                yield command

    def next_command(self) -> str:
        return self.draw.choice(self.table)()

    # registers
    def any(self) -> int:
        return self.draw.below(self.world.registers)

    def holding(self, *kinds: str) -> int:
        """A register that is thought to hold one of these; now and then any."""
        found = [register for register, kind in enumerate(self.kinds) if kind in kinds]
        return self.draw.choice(found) if found and not self.draw.one_in(8) else self.any()

    def source(self) -> int:
        return self.holding("cons", "block", "any") if self.draw.one_in(2) else self.any()

    def put_in(self, kind: str) -> int:
        register = self.any()
        self.kinds[register] = kind
        return register

    # programs
    def area(self, charge: int) -> str:
        area = self.draw.below(len(self.wanted))
        self.wanted[area] += charge
        return f"a{area}"

    def set(self) -> str:
        register, number = self.put_in("number"), self.draw.between(-2**31, 2**31 - 1)
        return f"set {register} {self.draw.choice(('nil', '7', '-3', str(number)))}"

    def move(self) -> str:
        source = self.source()
        return f"move {self.put_in(self.kinds[source])} {source}"

    def cons(self) -> str:
        car, cdr = self.source(), self.source()
        return f"cons {self.put_in('cons')} {self.area(2)} {car} {cdr}"

    def list(self) -> str:
        items = [self.source() for _ in range(30 if self.draw.one_in(16) else self.draw.between(1, 5))]
        return " ".join(["list", str(self.put_in("cons")), self.area(3 * len(items)), *map(str, items)])

    def make(self) -> str:
        fields = 80 if self.draw.one_in(16) else self.draw.between(0, 6)
        return f"make {self.put_in('block')} {self.area(fields + 1)} {self.draw.between(0, 9)} {fields}"

    def part(self) -> str:
        cons = self.holding("cons", "any")
        return f"{self.draw.choice(('car', 'cdr', 'cdr'))} {self.put_in('any')} {cons}"

    def store_part(self) -> str:
        return f"{self.draw.choice(('rplaca', 'rplacd', 'rplacd'))} {self.holding('cons')} {self.source()}"

    def get(self) -> str:
        block = self.holding("block")
        return f"get {self.put_in('any')} {block} {self.draw.below(4)}"

    def put(self) -> str:
        return f"put {self.holding('block')} {self.draw.below(4)} {self.source()}"

    def size(self) -> str:
        return f"size {self.holding('block')}"

    def eq(self) -> str:
        return f"eq {self.source()} {self.source()}"

    # space and phases
    def stats(self) -> str:
        return "stats"

    def grow(self) -> str:
        return f"grow {self.holding('block')} {self.draw.between(0, 9)}"

    def page_out(self) -> str:
        return f"page-out {self.draw.choice((1, 5, 40))}"

    def flip(self) -> str:
        levels = self.draw.some(range(1, self.world.levels + 1))
        if self.grade != "phases" or self.draw.one_in(3):
            return "flip full"
        return "flip " + ",".join(map(str, levels))

    def stray(self) -> str:
        """A command of a collection, at any time. In the grade of identity a reclaim only follows a scan."""
        step = self.draw.choice(("flip", "scavenge 3", "reclaim"))
        return self.flip() if step == "flip" or step == "reclaim" and self.grade == "identity" else step

    def collection_step(self) -> Optional[str]:
        """A flip now and then; between it and a reclaim some scans; the program runs beside them."""
        if self.left is None:
            if not self.draw.one_in(self.COLLECTION_EVERY):
                return None
            self.left = self.draw.choice(self.PAUSES)
            return self.flip()
        self.left -= 1
        if self.left == 1:
            return "scavenge 4294967295"
        if self.left == 0:
            return "reclaim"
        if self.left < 0:
            self.left = None
            return "dump" if self.draw.one_in(self.DUMP_ONE_IN) else None
        return f"scavenge {self.draw.choice((0, 1, 3, 10)[self.grade == 'identity':])}" if self.draw.one_in(5) else None


def wide(number: int, what: What, count: int, every: int) -> str:
    """An input with a world of its own, with dumps among its commands and one before `end`. The quotas of grade identity
    are known only when the commands are drawn."""
    from . import large                     # which builds on this module
    draw = Draw(number)
    world, trace = large.parts(draw, what) if what.size != "small" else small_parts(draw, what)
    commands = list(trace.commands(count))
    if what.grade == "identity":
        world.make_room(trace.wanted)
    ending = ["dump", "end"] if every else ["end"]
    parts = (world.lines(), with_dumps(iter(commands), every), ending)
    return text_of(line for part in parts for line in part)


def small_parts(draw: Draw, what: What) -> Tuple[World, Trace]:
    world = World(draw, what.grade)
    return world, Trace(draw, world, what)
