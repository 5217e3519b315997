"""The cases of the benchmarks: each is a mode of the program and a kind of input, with a number of commands or objects."""
from typing import List, NamedTuple, Optional, Tuple

from lib.inputs.benchmarks import made_input


class Less(NamedTuple):
    """An input whose instructions are subtracted: its kind, and how many of its units there are for each unit of the case."""
    kind: str
    share: int


class Case(NamedTuple):
    """A case: its name, the arguments of the program, the kind of its input, the number of its units, what is subtracted, and the
    estimate of the least number of instructions for a unit, if there is one."""
    name: str
    words: Tuple[str, ...]
    kind: Optional[str]
    units: int
    less: Optional[Less]
    limit: Optional[int]


REPLAY = ("replay",)
NOTHING = None


def start(kind: str) -> Less:
    """The input of this kind that has no commands."""
    return Less(kind, 0)


COMMANDS = [
    Case("set", REPLAY, "set", 100_000, start("set"), 95),
    Case("first path", REPLAY, "first_path", 100_000, start("first_path"), 145),
    Case("exercise", ("exercise", "--number", "1", "--count"), None, 100_000, NOTHING, 730),
    Case("lists of 8", REPLAY, "lists", 100_000, NOTHING, None),
    Case("random fields", REPLAY, "fields", 100_000, NOTHING, None),
    Case("random blocks", REPLAY, "made_blocks", 100_000, NOTHING, None),
    Case("random paging", REPLAY, "made_paging", 100_000, NOTHING, None),
    Case("random levels", REPLAY, "made_levels", 50_000, NOTHING, None),
    Case("random mixed", REPLAY, "made_mixed", 50_000, NOTHING, None),
]

OBJECTS = [
    Case("a cons collected, alone", REPLAY, "collected", 100_000, Less("chain", 1), 250),
    Case("a cons made and collected", REPLAY, "collected", 500_000, NOTHING, 470),
    Case("opening", REPLAY, "opened", 500_000, NOTHING, 170),
    Case("opening and dump", REPLAY, "dumped", 500_000, NOTHING, 400),
    Case("print", ("print",), "world", 500_000, NOTHING, 255),
    Case("compile", ("compile",), "expression", 500_000, NOTHING, 250),
    Case("census", ("census",), "world", 500_000, NOTHING, 200),
    Case("why", ("why", "--object", "1"), "world", 500_000, NOTHING, 200),
]


def command_and_input(program: List[str], case: Case, kind: Optional[str], number: int, count: int) -> Tuple[List[str], bytes]:
    """The command and its input for this number of units of a case, or of the kind that is subtracted."""
    if kind is None:
        return [*program, *case.words, str(count)], b""
    return [*program, *case.words], made_input(kind, number, count)
