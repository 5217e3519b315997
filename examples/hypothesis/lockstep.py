"""The commands as rules: each is given to lispm and to the toy, and the replies are compared before the next is drawn."""
import subprocess
from itertools import combinations
from typing import List, Optional, Tuple

import lispm
from hypothesis import strategies
from hypothesis.stateful import RuleBasedStateMachine, rule

from toy import Toy

REGISTERS = 4
WORLD = ["lispm-world 1", f"space 5 32 {REGISTERS} 1 2", "area work dynamic 1024", "trace"]
REGISTER = strategies.integers(0, REGISTERS - 1)
FIELD = strategies.integers(0, 3)
VALUE = strategies.sampled_from(("nil", "1", "-2147483648"))
ITEMS = strategies.lists(REGISTER, min_size=1, max_size=4)


class Differs(AssertionError):
    """The toy's reply isn't lispm's."""


class Pipe:
    """The program lispm, which answers a line before it reads the next."""

    def __init__(self, path: str):
        self.program = subprocess.Popen([path, "replay"], stdin=subprocess.PIPE, stdout=subprocess.PIPE, text=True, bufsize=1)

    def give(self, line: str) -> None:
        """A line of the world, which has no answer."""
        self.program.stdin.write(line + "\n")

    def answer(self, command: str) -> str:
        self.give(command)
        return self.program.stdout.readline().rstrip("\n")

    def close(self) -> None:
        self.program.stdin.close()
        self.program.stdout.close()
        self.program.wait()


class Machine:
    """The same by the C library, in this process."""

    def __init__(self, library: lispm.Library):
        self.session = library.session()

    def give(self, line: str) -> None:
        self.session.line(line.encode())

    def answer(self, command: str) -> str:
        return self.session.line(command.encode()).decode().rstrip("\n")

    def close(self) -> None:
        self.session.close()


class Lockstep(RuleBasedStateMachine):
    """One example: a lispm of its own, and a toy of its own."""

    library: Optional[lispm.Library] = None             # if there is one; else the program answers
    lispm = ""                                          # the path of the program
    fault = False                                       # the toy has its bug
    latest: List[Tuple[str, str, str]] = []             # of the latest example: command, lispm's reply, the toy's

    def __init__(self):
        super().__init__()
        self.toy = Toy(REGISTERS, self.fault)
        self.is_equal = True
        Lockstep.latest = self.done = []
        self.machine = Machine(self.library) if self.library is not None else Pipe(self.lispm)
        for line in WORLD:
            self.machine.give(line)

    def teardown(self):
        """After an example without a difference each pair of registers is compared."""
        try:
            for one, other in combinations(range(REGISTERS), 2) if self.is_equal else ():
                self.check(f"eq {one} {other}")
        finally:
            self.machine.close()

    def replies(self, command: str) -> Tuple[str, str]:
        """The replies of lispm and of the toy."""
        wanted = self.machine.answer(command)
        try:
            got = self.toy.answer(command)
        except Exception as error:
            got = f"died, {error!r}"
        self.done.append((command, wanted, got))
        return wanted, got

    def check(self, command: str) -> None:
        wanted, got = self.replies(command)
        self.is_equal = wanted == got
        if not self.is_equal:
            raise Differs(f"{command}: lispm answers {wanted}, the toy {got}")

    @rule(register=REGISTER, value=VALUE)
    def set(self, register, value):
        self.check(f"set {register} {value}")

    @rule(register=REGISTER, source=REGISTER)
    def move(self, register, source):
        self.check(f"move {register} {source}")

    @rule(register=REGISTER, car=REGISTER, cdr=REGISTER)
    def cons(self, register, car, cdr):
        self.check(f"cons {register} work {car} {cdr}")

    @rule(register=REGISTER, items=ITEMS)
    def list(self, register, items):
        self.check(f"list {register} work " + " ".join(map(str, items)))

    @rule(register=REGISTER, code=FIELD, count=FIELD)
    def make(self, register, code, count):
        self.check(f"make {register} work {code} {count}")

    @rule(part=strategies.sampled_from(("car", "cdr")), register=REGISTER, source=REGISTER)
    def part(self, part, register, source):
        self.check(f"{part} {register} {source}")

    @rule(part=strategies.sampled_from(("rplaca", "rplacd")), cons=REGISTER, source=REGISTER)
    def store_part(self, part, cons, source):
        self.check(f"{part} {cons} {source}")

    @rule(register=REGISTER, block=REGISTER, field=FIELD)
    def get(self, register, block, field):
        self.check(f"get {register} {block} {field}")

    @rule(block=REGISTER, field=FIELD, source=REGISTER)
    def put(self, block, field, source):
        self.check(f"put {block} {field} {source}")

    @rule(block=REGISTER)
    def size(self, block):
        self.check(f"size {block}")

    @rule(one=REGISTER, other=REGISTER)
    def eq(self, one, other):
        self.check(f"eq {one} {other}")

    @rule()
    def flip(self):
        """The number of pages is free, so replies are compared by their first word."""
        wanted, got = self.replies("flip full")
        assert wanted.split(" ")[0] == got.split(" ")[0]

    @rule(count=FIELD)
    def scavenge(self, count):
        """Whether the scan has finished is free, too."""
        wanted, got = self.replies(f"scavenge {count}")
        assert wanted == got or {wanted, got} == {"more", "done"}

    @rule()
    def finish(self):
        self.check("scavenge 4294967295")
        self.check("reclaim")
