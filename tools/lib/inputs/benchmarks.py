"""The inputs of the benchmarks. Each is generated from a seed and a count; the same two give the same input."""
from random import Random
from typing import Callable, Dict, List, NamedTuple, Sequence

SMALL = ["space 512 4096 16 1 2", "area work dynamic 450000"]
OBJECTS = ["space 1024 4096 16 1 0", "area work dynamic 1000000"]
COLLECTION = ["flip full", "scavenge 4294967295", "reclaim"]

Maker = Callable[[Random, int], bytes]         # makes an input with this number of units
Shares = Dict[str, float]

BLOCKS, FIELDS, HELD = 300, 2_000, 250


def session(world: List[str], commands: List[str]) -> bytes:
    """The bytes of an input with these lines of a world and these commands."""
    return ("\n".join(["lispm-world 1", *world, "trace", *commands, "end"]) + "\n").encode()


def sets(draw: Random, count: int) -> bytes:
    """`set` only."""
    return session(SMALL, [f"set {draw.randrange(16)} {draw.randrange(100)}" for _ in range(count)])


def first_path(draw: Random, count: int) -> bytes:
    """`set`, `cons`, `car`, `cdr` and `eq` over 16 registers."""
    commands = []
    for _ in range(count):
        to, left, right = (draw.randrange(16) for _ in range(3))
        commands.append(draw.choice((f"set {to} {left}", f"cons {to} work {left} {right}", f"car {to} {left}", f"cdr {to} {left}", f"eq {left} {right}")))
    return session(["space 512 4096 16 1 2", "area work dynamic 500000"], commands)


def lists(draw: Random, count: int) -> bytes:
    """Makes lists of 8, walks along each by `cdr`, sometimes with a `rplacd` in the middle, and runs full collections."""
    commands = [f"set {register} {register}" for register in range(8)]
    while len(commands) < count:
        kept = draw.randrange(10, 16)
        commands += [f"list {kept} work 0 1 2 3 4 5 6 7", f"move 8 {kept}"] + ["cdr 8 8"] * draw.randrange(2, 8)
        if draw.random() < 0.3:
            commands.append(f"rplacd 8 {draw.randrange(10, 16)}")
        if draw.random() < 0.005:
            commands += COLLECTION
    return session(["space 128 256 16 1 2", "area work dynamic 60000"], commands[:count])


def block_makers(register: int, count: int) -> List[str]:
    """Commands that make this number of blocks. A block without a register of its own is stored in field 0 of one of the first."""
    commands = []
    for block in range(count):
        if block < HELD:
            commands.append(f"make {block} work 7 {FIELDS}")
        else:
            commands += [f"make {register} work 7 {FIELDS}", f"put {block - HELD} 0 {register}"]
    return commands


def fields(draw: Random, count: int) -> bytes:
    """`get` and `put` at random in 300 blocks of 2,000 fields, under 32 page frames."""
    commands = block_makers(HELD, BLOCKS)
    while len(commands) < count:
        block = draw.randrange(BLOCKS)
        if block >= HELD:
            commands.append(f"get {HELD} {block - HELD} 0")
        place, at = min(block, HELD), draw.randrange(1, FIELDS)
        commands.append(draw.choice((f"get 252 {place} {at}", f"put {place} {at} 251")))
    return session(["space 700 32 256 1 0", "area work dynamic 620000"], commands[:count])


def chain(draw: Random, count: int) -> bytes:
    """A chain of conses."""
    return session(OBJECTS, ["cons 0 work 1 0"] * count)


def collected(draw: Random, count: int) -> bytes:
    """A chain of conses, and a full collection of it."""
    return session(OBJECTS, ["cons 0 work 1 0"] * count + COLLECTION)


# The forms of a random command, each with its relative frequency. Registers 0 to 7 hold conses, 8 to 11 blocks, 12 to 14
# numbers, and 15 holds what was last read from an object.
CONSES: Shares = {"cons {c} {a} {n} {c}": 6, "list {c} {a} {n} {n} {c} {c}": 2, "car 15 {c}": 4, "cdr 15 {c}": 4, "rplaca {c} {n}": 2, "rplacd {c} {c}": 1, "eq {c} {c}": 1, "set {n} {i}": 2}
MAKERS: Shares = {"make {b} {a} 7 {k}": 2, "grow {b} {k}": 1, "get 15 {b} {i}": 6, "put {b} {i} {c}": 4, "put {b} {i} {n}": 4, "size {b}": 1}
PAGES = {"page-out 8": 0.5, "dump": 0.02}
ROUNDS = {"flip {f}": 0.1, "scavenge 100": 0.6, "reclaim": 0.1}
FULL = {"flip full": 0.1, "scavenge 2000": 0.6, "reclaim": 0.2}


class Profile(NamedTuple):
    """The lines of a world, how often each form of a command occurs, the greatest length of a block, and the levels that are
    flipped."""
    world: List[str]
    shares: Shares
    longest: int
    flips: Sequence[str]


PROFILES = {
    "blocks": Profile(["space 96 64 16 1 0", "area a0 dynamic 40000"], {**CONSES, **MAKERS, **FULL}, 200, ("full",)),
    "paging": Profile(["space 128 32 16 1 0", "area a0 dynamic 60000"], {**CONSES, **MAKERS, **FULL, **PAGES}, 400, ("full",)),
    "levels": Profile(["space 128 64 16 4 4", "area a0 ephemeral 20000"], {**CONSES, **ROUNDS}, 8, ("1", "1", "1", "1,2", "1,2,3", "full")),
    "mixed": Profile(["space 192 64 16 3 4", "area a0 ephemeral 12000", "area a1 dynamic 20000", "area a2 static 4000"],
                     {**CONSES, **MAKERS, **ROUNDS, **PAGES}, 40, ("1", "1", "1,2", "full")),
}


def made_command(draw: Random, form: str, profile: Profile) -> str:
    """One command of a form, with random registers and numbers."""
    areas = len(profile.world) - 1
    return form.format(
        c=draw.randrange(8), b=draw.randrange(8, 12), n=draw.randrange(12, 15),
        a=f"a{draw.randrange(areas)}", i=draw.randrange(8), k=draw.randrange(8, profile.longest + 1), f=draw.choice(profile.flips))


def made(name: str) -> Maker:
    """The kind of input with random commands of a profile."""
    profile = PROFILES[name]
    forms, weights = list(profile.shares), list(profile.shares.values())

    def commands(draw: Random, count: int) -> bytes:
        start = [f"make {block} a0 7 8" for block in range(8, 12)] + [f"cons {cons} a0 12 12" for cons in range(8)]
        drawn = (draw.choices(forms, weights)[0] for _ in range(len(start), count))
        return session(profile.world, (start + [made_command(draw, form, profile) for form in drawn])[:count])

    commands.__doc__ = f"Random commands, {name}."
    return commands


def conses(count: int) -> List[str]:
    """The lines of a world with this number of conses, each with its own number as its car and the next one as its cdr."""
    return ["lispm-world 2", *OBJECTS, "capacity 0", *(f"cons work {at} #{at + 1}" for at in range(count - 1)), f"cons work {count - 1} nil", "root 0 #0"]


def text_of(lines: List[str]) -> bytes:
    return ("\n".join(lines) + "\n").encode()


def opened(draw: Random, count: int) -> bytes:
    """A world of conses, and no command."""
    return text_of([*conses(count), "trace", "end"])


def dumped(draw: Random, count: int) -> bytes:
    """A world of conses, and a `dump`."""
    return text_of([*conses(count), "trace", "dump", "end"])


def world(draw: Random, count: int) -> bytes:
    """A world file of conses."""
    return text_of([*conses(count), "end-world"])


def expression(draw: Random, count: int) -> bytes:
    """The expression of a list with this number of items."""
    return text_of(["sexpr-world 1", *OBJECTS, "capacity 0", "root 0 work(" + " ".join(map(str, range(count))) + ")", "end-sexpr"])


KINDS: Dict[str, Maker] = {
    "set": sets, "first_path": first_path, "lists": lists, "fields": fields, "chain": chain, "collected": collected,
    **{f"made_{name}": made(name) for name in PROFILES},
    "opened": opened, "dumped": dumped, "world": world, "expression": expression,
}


def made_input(kind: str, number: int, count: int) -> bytes:
    """The bytes of an input of this kind."""
    return KINDS[kind](Random(f"{kind} {number}"), count)
