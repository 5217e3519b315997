"""Inputs made from a number, of six kinds: full collections, levels, blocks, paging, capacities, and all of it mixed.

An input is a world and commands. Registers are guessed to hold what was put there, so that most commands do something.
"""
import random
from typing import Dict, List, NamedTuple, Tuple

KINDS = ("full", "levels", "blocks", "paging", "capacities", "mixed")
PROGRAM = {"set": 3, "move": 3, "cons": 14, "list": 8, "car": 7, "cdr": 9, "rplaca": 7, "rplacd": 9, "eq": 2, "stats": 1}
BLOCKS = {"make": 8, "get": 5, "put": 7, "grow": 5, "size": 1}
COLLECTOR = {"flip": 6, "scavenge": 9, "reclaim": 4, "scan-all": 3}
WEIGHTS: Dict[str, Dict[str, int]] = {
    "full": {**PROGRAM, **COLLECTOR},
    "levels": {**PROGRAM, **COLLECTOR, "make": 2, "put": 2, "page-out": 2},
    "blocks": {**PROGRAM, **BLOCKS, **COLLECTOR, "make": 14, "grow": 10, "page-out": 2},
    "paging": {**PROGRAM, **BLOCKS, **COLLECTOR, "page-out": 9},
    "capacities": {**PROGRAM, **BLOCKS, "scavenge": 5, "reclaim": 2, "flip": 1, "page-out": 2},
    "mixed": {**PROGRAM, **BLOCKS, **COLLECTOR, "page-out": 4, "dump": 1}}


class Made(NamedTuple):
    """An input: the lines of its world up to `trace`, the names of its areas, and its commands."""
    kind: str
    world: List[str]
    names: List[str]
    commands: List[str]


class Maker:
    """Draws one input."""

    def __init__(self, kind: str, number: int):
        self.kind, self.draw = kind, random.Random(f"{kind} {number}")
        draw = self.draw
        self.levels = 1 if kind == "full" else draw.choice((1, 2, 3, 6) if kind != "levels" else (2, 2, 3, 4, 6))
        self.registers = draw.choice((3, 5, 8, 12))
        self.large = kind in ("paging", "mixed") and draw.random() < 0.25
        self.kinds = self.area_kinds()
        self.quotas = [draw.choice((9000, 20000) if self.large else (20, 60, 200, 600, 3000)) for _ in self.kinds]
        self.names = [f"a{at}" for at in range(len(self.kinds))]
        self.held: Dict[str, List[int]] = {"cons": [], "block": []}
        self.objects: List[str] = []

    def area_kinds(self) -> List[str]:
        young = {"full": "dynamic", "levels": "ephemeral", "capacities": "ephemeral"}.get(self.kind)
        kinds = ("static", "dynamic", "ephemeral")
        return [young or self.draw.choice(kinds[1:])] + [self.draw.choice(kinds) for _ in range(self.draw.randrange(3))]

    # ------------------------------------------------------------- the world
    def world(self) -> List[str]:
        wanted = sum(-(-quota // 1024) + 2 * (self.levels + 1) for quota in self.quotas)
        regions, rate = max(5, wanted + self.draw.randrange(3)), self.draw.choice((0, 1, 2, 2, 4, 16))
        capacities = self.capacities()
        areas = [f"area {name} {kind} {quota}" for name, kind, quota in zip(self.names, self.kinds, self.quotas)]
        objects = self.object_lines() if self.kind in ("paging", "mixed", "levels") else []
        return [f"lispm-world {1 + len(capacities)}", f"space {regions} 32 {self.registers} {self.levels} {rate}",
                *areas, *capacities, *objects, "trace"]

    def capacities(self) -> List[str]:
        """The line of a world of format 2; levels collect by themselves in two kinds of input alone."""
        if self.kind == "capacities":
            return ["capacity " + " ".join(str(self.draw.choice((6, 12, 30, 90))) for _ in range(self.levels))]
        sizes = (0, 0, 20, 90) if self.kind == "mixed" else (0,)
        line = "capacity " + " ".join(str(self.draw.choice(sizes)) for _ in range(self.levels))
        return [line] if self.draw.random() < 0.5 else []

    def object_lines(self) -> List[str]:
        """Some conses in each area, each with the one before it, and roots to them."""
        count = self.draw.randrange(1, 5)
        conses = [f"cons {name} {at} #{max(0, count * number + at - 1)}"
                  for number, name in enumerate(self.names) for at in range(count)]
        rooted = [at for at in range(self.registers) if self.draw.random() < 0.5]
        return conses + [f"root {at} #{self.draw.randrange(len(conses))}" for at in rooted]

    # -------------------------------------------------------------- commands
    def any(self) -> int:
        return self.draw.randrange(self.registers)

    def holding(self, what: str) -> int:
        """A register that is thought to hold this; now and then any."""
        return self.draw.choice(self.held[what]) if self.held[what] and self.draw.random() < 0.9 else self.any()

    def target(self, what: str = "") -> int:
        """A register that gets something."""
        register = self.any()
        for name, registers in self.held.items():
            if register in registers:
                registers.remove(register)
            if name == what:
                registers.append(register)
        return register

    def source(self) -> int:
        return self.draw.choice((self.holding("cons"), self.holding("block"), self.any()))

    def cons(self) -> str:
        car, cdr = self.source(), self.source()
        return f"cons {self.target('cons')} {self.draw.choice(self.names)} {car} {cdr}"

    def list(self) -> str:
        items = [self.source() for _ in range(self.draw.choice((1, 2, 3, 5, 400 if self.large else 12)))]
        return " ".join(["list", str(self.target("cons")), self.draw.choice(self.names), *map(str, items)])

    def make(self) -> str:
        fields = self.draw.choice((600, 1500, 2047) if self.large else (0, 1, 2, 3, 5, 9, 70))
        return f"make {self.target('block')} {self.draw.choice(self.names)} {self.draw.randrange(65536)} {fields}"

    def flip(self) -> str:
        levels = sorted(self.draw.sample(range(1, self.levels + 1), self.draw.randrange(1, self.levels + 1)))
        full = self.kind == "full" or self.draw.random() < 0.3
        return "flip full" if full else "flip " + ",".join(map(str, levels))

    def command(self, what: str) -> str:
        if what in ("cons", "list", "make", "flip"):
            return getattr(self, what)()
        if what in ("rplaca", "rplacd"):
            return f"{what} {self.holding('cons')} {self.source()}"
        block, index = self.holding("block"), self.draw.randrange(4)
        cons, source = self.holding("cons"), self.source()
        return {"set": lambda: f"set {self.target()} {self.draw.choice(('nil', '7', '-3', '2147483647', '-2147483648'))}",
                "move": lambda: f"move {self.target('cons')} {cons}",
                "car": lambda: f"car {self.target()} {cons}", "cdr": lambda: f"cdr {self.target('cons')} {cons}",
                "get": lambda: f"get {self.target()} {block} {index}", "put": lambda: f"put {block} {index} {source}",
                "grow": lambda: f"grow {block} {self.draw.choice((0, 2, 4, 9, 40))}", "size": lambda: f"size {block}",
                "eq": lambda: f"eq {source} {cons}", "scan-all": lambda: "scavenge 4294967295",
                "scavenge": lambda: f"scavenge {self.draw.choice((0, 1, 1, 2, 3, 5, 9, 20, 300))}",
                "page-out": lambda: f"page-out {self.draw.choice((1, 2, 5, 32))}"}.get(what, lambda: what)()

    def made(self) -> Made:
        weights, count = WEIGHTS[self.kind], self.draw.randrange(20, 60 if self.large else 130)
        drawn = self.draw.choices(list(weights), list(weights.values()), k=count)
        return Made(self.kind, self.world(), self.names, [self.command(what) for what in drawn])


def make(number: int) -> Tuple[Made, random.Random]:
    """The input of a number, and a source of draws for what is done with it."""
    maker = Maker(KINDS[number % len(KINDS)], number)
    return maker.made(), maker.draw
