"""Large and huge wide inputs: worlds of thousands of objects, 256 registers, long lists and wide blocks, and traces in
which many things are done in a row, as programs do them."""
from collections import deque
from typing import Deque, Dict, List, Sequence, Tuple

from .drawing import Draw, Trace, What, World

OBJECTS = {"large": (300, 3000), "huge": (3000, 20000)}
WORDS_AT_ONCE = 400000          # of long lists and wide blocks, at grade identity: quotas have to hold them all
CHAINS = (5, 40, 200, 1000)
LENGTHS = (20, 100, 300, 700, 1024, 1024)
WIDTHS = (30, 300, 1001, 1100, 1500, 2047)
Piece = Tuple[str, int, int]


def parts(draw: Draw, what: What) -> Tuple[World, Trace]:
    world = LargeWorld(draw, what.grade, what.size)
    return world, (LargeTrace if what.size == "large" else HugeTrace)(draw, world, what)


class LargeWorld(World):
    """A world with deep lists, wide blocks, circles, and parts that are shared."""
    REGISTERS = (64, 200, 256)
    QUOTAS = (3000, 20000, 40000, 60000, 90000)
    CAPACITIES = (0, 0, 1500, 6000, 20000, 50000)

    def __init__(self, draw: Draw, grade: str, size: str):
        self.most = draw.between(*OBJECTS[size])
        self.kinds_of: List[Tuple[str, int]] = []           # of each object: cons or block, and its number of parts
        self.in_register: Dict[int, Tuple[str, int]] = {}
        super().__init__(draw, grade)

    def object_lines(self) -> List[str]:
        pieces = self.drawn_pieces()
        first, lines = 0, []
        for piece in pieces:
            lines += self.piece_lines(first, *piece)
            first += 1 if piece[0] == "block" else piece[2]
        return lines

    def drawn_pieces(self) -> List[Piece]:
        """Pieces that leave a third of each quota free: conses in a chain, conses in any order, lists, blocks."""
        pieces: List[Piece] = []
        for _ in range(self.most):
            kind = self.draw.choice(("chain", "chain", "conses", "block", "block") + ("run",) * (self.format == 2))
            area = self.draw.below(len(self.quotas))
            count = self.draw.choice({"block": WIDTHS + (3,) * 20, "run": LENGTHS}.get(kind, CHAINS))
            charge = {"block": count + 1, "run": 3 * count}.get(kind, 2 * count)
            if self.objects >= self.most:
                break
            if self.charged[area] + charge <= self.quotas[area] * 2 // 3:
                self.charged[area] += charge
                self.objects += 1 if kind == "block" else count
                self.kinds_of += [("block", count)] if kind == "block" else [("cons", 2)] * count
                pieces.append((kind, area, count))
        return pieces

    def piece_lines(self, first: int, kind: str, area: int, count: int) -> List[str]:
        if kind in ("block", "run"):
            return [self.object_line(kind, area, count)]
        if kind == "conses":
            return [self.object_line("cons", area, 2) for _ in range(count)]
        end = self.draw.choice(("nil", "nil", f"#{first}"))         # or a circle
        nexts = [f"#{n}" for n in range(first + 1, first + count)] + [end]
        return [f"cons a{area} {self.value()} {rest}" for rest in nexts]

    def root_lines(self) -> List[str]:
        lines = []
        for register in range(self.registers):
            if self.objects and not self.draw.one_in(4):
                found = self.draw.below(self.objects)
                self.in_register[register] = self.kinds_of[found]
                lines.append(f"root {register} #{found}")
        return lines


class LargeTrace(Trace):
    """Commands in rows: the first half of the registers mostly holds old objects, which are written to."""
    WEIGHTS = {**Trace.WEIGHTS, "write-many": 2, "long-list": 2, "wide-block": 2, "nest": 1, "walk": 1, "circle": 1,
               "drop": 1, "fill": 1}
    WEIGHTS_BEYOND_IDENTITY = {**Trace.WEIGHTS_BEYOND_IDENTITY, "widen": 1}
    COLLECTION_EVERY = 40
    PAUSES: Sequence[int] = (2, 6, 30, 100)
    DUMP_ONE_IN = 10

    def __init__(self, draw: Draw, world: LargeWorld, what: What):
        super().__init__(draw, world, what)
        self.half = world.registers // 2
        self.lengths: Dict[int, int] = {}                   # of blocks, by register
        self.waiting: Deque[str] = deque()                  # commands of a row
        self.room = WORDS_AT_ONCE
        for register, (kind, count) in world.in_register.items():
            self.kinds[register] = kind
            if kind == "block":
                self.lengths[register] = count

    def next_command(self) -> str:
        while not self.waiting:
            command = super().next_command()
            if command:
                return command
        return self.waiting.popleft()

    def put_in(self, kind: str) -> int:
        """A register for something new: seldom one of the first half."""
        first = 0 if self.draw.one_in(12) else self.half
        register = self.draw.between(first, self.world.registers - 1)
        self.kinds[register] = kind
        self.lengths.pop(register, None)
        return register

    def row(self, *commands: str) -> str:
        """These commands follow, one by one."""
        self.waiting.extend(commands)
        return ""

    def is_affordable(self, words: int) -> bool:
        """Quotas of grade identity have room for it."""
        if self.grade != "identity":
            return True
        self.room -= words
        return self.room > 0

    def old(self, count: int) -> List[int]:
        """Registers of the first half that hold objects."""
        found = [register for register in range(self.half) if self.kinds[register] in ("cons", "block")]
        return [self.draw.choice(found) for _ in range(count)] if found else []

    def new(self) -> Tuple[int, str]:
        """A register with a new cons, and the command that makes it."""
        register = self.put_in("cons")
        return register, f"cons {register} {self.area(2)} {self.any()} {self.any()}"

    def store_in(self, target: int, source: int) -> str:
        """Writes a part of an object that is thought to be there."""
        if self.kinds[target] == "block":
            length = self.lengths.get(target, 4)
            index = self.draw.below(max(1, length)) if self.draw.one_in(2) else max(0, length - 1 - self.draw.below(60))
            return f"put {target} {index} {source}"
        return f"{self.draw.choice(('rplaca', 'rplaca', 'rplaca', 'rplacd'))} {target} {source}"

    # single commands that differ
    def make(self) -> str:
        fields = self.draw.between(0, 6)
        charge, register = self.area(fields + 1), self.put_in("block")
        self.lengths[register] = fields
        return f"make {register} {charge} {self.draw.between(0, 9)} {fields}"

    def get(self) -> str:
        block = self.holding("block")
        index = self.draw.below(self.lengths.get(block, 4) + 1)
        return f"get {self.put_in('any')} {block} {index}"

    def put(self) -> str:
        return self.store_in(self.holding("block"), self.source())

    # rows
    def write_many(self) -> str:
        """New conses that old objects alone refer to."""
        commands: List[str] = []
        for target in self.old(self.draw.choice((20, 70, 150, 300))):
            register, cons = self.new()
            commands += [cons, self.store_in(target, register)]
        return self.row(*commands)

    def news(self, count: int) -> Tuple[List[int], List[str]]:
        both = [self.new() for _ in range(count)]
        return [register for register, _ in both], [cons for _, cons in both]

    def long_list(self) -> str:
        """A list of new conses, which are then held by it alone."""
        count = self.draw.choice(LENGTHS)
        if not self.is_affordable(3 * count):
            return ""
        registers, conses = self.news(8)
        area = self.area(3 * count)
        items = [str(self.draw.choice(registers)) for _ in range(count)]
        holder = self.draw.below(self.half)
        self.kinds[holder] = "cons"
        cleared = [f"set {register} {self.draw.below(9)}" for register in registers]
        return self.row(*conses, " ".join(["list", str(holder), area, *items]), *cleared)

    def wide_block(self) -> str:
        """A block some of whose fields have new conses."""
        count = self.draw.choice(WIDTHS)
        if not self.is_affordable(count + 1):
            return ""
        holder, area = self.draw.below(self.half), self.area(count + 1)
        self.kinds[holder], self.lengths[holder] = "block", count
        registers, conses = self.news(6)
        stores = [self.store_in(holder, register) for register in registers]
        cleared = [f"set {register} nil" for register in registers]
        return self.row(f"make {holder} {area} {self.draw.between(0, 9)} {count}", *conses, *stores, *cleared)

    def nest(self) -> str:
        """A deep list, item by item."""
        register, cons = self.new()
        part = self.draw.choice(("{0} {1}", "{1} {0}"))
        more = [f"cons {register} {self.area(2)} " + part.format(self.any(), register)
                for _ in range(self.draw.choice((20, 100, 400)))]
        return self.row(cons, *more)

    def walk(self) -> str:
        """Along an old list."""
        register = self.put_in("any")
        steps = [f"cdr {register} {register}"] * self.draw.choice((5, 30, 100))
        return self.row(f"move {register} {self.holding('cons')}", *steps, f"car {self.put_in('any')} {register}")

    def circle(self) -> str:
        registers, conses = self.news(self.draw.between(1, 6))
        nexts = registers[1:] + registers[:1]
        return self.row(*conses, *(f"rplacd {one} {other}" for one, other in zip(registers, nexts)))

    def drop(self) -> str:
        """Old objects are let go."""
        return self.row(*(f"set {register} nil" for register in self.old(self.draw.choice((2, 8, 30)))))

    def fill(self) -> str:
        """Garbage, so that a runtime's own collections run."""
        register = self.put_in("cons")
        conses = [f"cons {register} {self.area(2)} {self.any()} {self.any()}" for _ in range(self.draw.choice((100, 400, 700)))]
        return self.row(*conses)

    def widen(self) -> str:
        """A block grows up to the limit."""
        block = self.holding("block")
        counts: Sequence[int] = sorted(self.draw.between(1, 2047) for _ in range(self.draw.between(1, 4)))
        self.lengths[block] = counts[-1]
        return self.row(*(f"grow {block} {count}" for count in counts), *(self.store_in(block, self.any()) for _ in range(4)))


class HugeTrace(LargeTrace):
    """Longer between collections."""
    COLLECTION_EVERY = 200
    PAUSES = (6, 30, 100, 1000)
    DUMP_ONE_IN = 50
