"""Whether a reply is one that some run gives, for each kind of command.

A check keeps the hypotheses on the run's free choices that explain the reply. If none does, it raises
judged_lines.Wrong. A reply that is refused is wrong. What is accepted is a run, up to the relaxations that are noted in
`Known.relaxed`: `sums` (the charges of what a reclaim may have kept are followed area by area and level by level) and
`bounds` (the hypotheses are too many, so only bounds are kept, until replies say enough).
"""
from typing import Callable, Dict, List, Optional, Tuple

from ..inputs import dumping
from ..inputs.graph import ALLOCATING, EFFECTS
from ..inputs.spelling import number
from ..inputs.values import Ref, World
from ..inputs.verdict import Command
from . import explaining, sums
from .explaining import Explanation
from .hypothesis import Hypothesis
from .judged_lines import Replies
from .known import Known

PHASE_WORDS = {"busy", "more", "done", "reclaimed", "not-done", "not-flipped"}
MOST_SHOWN = 8             # values that an expectation names one by one
MEET_NO_FAULT = {"set", "flip", "reclaim", "stats"}
PROGRAM = {head: effect for head, effect in EFFECTS.items() if head not in ALLOCATING}


class Run:
    """A run as far as it is judged: what is known, the remaining hypotheses on its free choices, and how many more times it may
    reply `fault`."""

    def __init__(self, world: World, replies: Replies, faults: int):
        self.known = Known(world)
        self.graph = self.known.graph
        self.hypotheses: List[Explanation] = [Hypothesis(self.known)]
        self.collects_itself = world.collects_itself()
        self.replies = replies
        self.faults = faults

    def judge(self, command: Command) -> None:
        """Takes the reply to the next command, or raises Wrong."""
        head = command[0]
        self.known.number += 1
        effect = PROGRAM.get(head)
        if effect is None or self.faults:
            self.judge_other(command)
            return
        expected, got = effect(self.graph, command), self.replies.take()
        if got != expected:
            raise self.replies.wrong(kind_of(head, expected, got), expected, got)
        if head == "rplacd" and got == "ok":
            self.replace_cdr()

    def replace_cdr(self) -> None:
        """An `rplacd` was done."""
        for one in self.hypotheses:
            one.replace_cdr()

    def judge_other(self, command: Command) -> None:
        """A command that may reply `fault`, or whose reply isn't fixed by the graph alone."""
        head = command[0]
        if self.collects_itself and head in ALLOCATING:
            self.hypotheses = explaining.after_silent_steps(self.known, self.hypotheses)
        if self.faults and self.is_fault(head):
            self.take_fault(command)
        else:
            OTHERS[head](self, command, None if head in SEVERAL_LINES else self.replies.take())

    def is_fault(self, head: str) -> bool:
        return self.replies.next_is("fault") and head not in MEET_NO_FAULT

    def take_fault(self, command: Command) -> None:
        """The command replied `fault`: it changed nothing, but it may have scanned."""
        self.faults -= 1
        self.replies.take()
        if command[0] == "scavenge" or self.graph.allocation(command) is not None:
            for one in self.hypotheses:
                one.scan_before_fault()

    def keep_with_account(self, area: int, charged: int) -> bool:
        """Keeps the hypotheses in which this area is charged this; False, and keeps all, if there is none."""
        left = [one for one in self.hypotheses if one.account_is(area, charged)]
        self.hypotheses = left or self.hypotheses
        return bool(left)

    # --------------------------------------------------- the hypotheses

    def account(self, area: int) -> int:
        """The values that an area's account can have, as a set of sums."""
        values = 0
        for one in self.hypotheses:
            values |= one.account_sums(area)
        return values


def shown_values(values: int) -> str:
    """Values that are possible: one by one if they are few."""
    if sums.count(values) <= MOST_SHOWN:
        return "|".join(map(str, sums.each(values)))
    return f"{sums.least(values)}..{sums.greatest(values)}"


def judge_program(run: Run, command: Command, got: Optional[str]) -> None:
    """A command whose reply the graph alone says."""
    expected = run.graph.step(command)
    if got != expected:
        raise run.replies.wrong(kind_of(command[0], expected, got), expected, got)
    if command[0] == "rplacd" and got == "ok":
        run.replace_cdr()


# ----------------------------------------------------------- allocations

def kind_of(head: str, expected: str, got: Optional[str]) -> str:
    """The kind of a reply that should be another one."""
    if head == "eq":
        return "eq"
    for reply in (expected, got or ""):
        word = reply.partition(" ")[0]
        if word in ("wrong-type", "no-field", "block", "exhausted"):
            return word
    return "value"


def judge_new(run: Run, command: Command, got: Optional[str], charge: int) -> None:
    """`cons`, `list` and `make`."""
    area = command[2]
    if got != "ok":
        take_refusal(run, command, got, area, charge)
        return
    left = [one for one in run.hypotheses if one.allocated(area, charge)]
    if not left:
        raise run.replies.wrong("exhausted", allocation_text(run, area, charge), got)
    run.hypotheses = left
    EFFECTS[command[0]](run.graph, command)


def judge_cons(run: Run, command: Command, got: Optional[str]) -> None:
    judge_new(run, command, got, 2)


def judge_list(run: Run, command: Command, got: Optional[str]) -> None:
    judge_new(run, command, got, 3 * (len(command) - 3))


def judge_make(run: Run, command: Command, got: Optional[str]) -> None:
    judge_new(run, command, got, command[4] + 1)


def judge_grow(run: Run, command: Command, got: Optional[str]) -> None:
    wanted = run.graph.allocation(command)
    if wanted is None:                                  # the block is as wide, or there is none
        judge_program(run, command, got)
        return
    area, charge = wanted
    if got != "ok":
        take_refusal(run, command, got, area, charge)
        return
    block = run.graph.registers[command[1]]
    assert isinstance(block, Ref)
    name, fields = block.n, len(run.graph.objects[block.n].fields)
    left = [one for one in run.hypotheses if one.grew(area, charge, name, fields)]
    if not left:
        raise run.replies.wrong("exhausted", allocation_text(run, area, charge), got)
    run.hypotheses = left
    run.graph.step(command)


def take_refusal(run: Run, command: Command, got: Optional[str], area: int, charge: int) -> None:
    left = refused_allocation(run, got, area, charge)
    if not left:
        raise run.replies.wrong(kind_of(command[0], "ok", got), allocation_text(run, area, charge), got)
    run.hypotheses = left


def refused_allocation(run: Run, got: Optional[str], area: int, charge: int) -> List[Explanation]:
    """The hypotheses that explain that an allocation was refused."""
    rule = run.known.areas[area]
    words = (got or "").split(" ")
    charged = number(words[2]) if len(words) == 5 else None
    if charged is None or got != f"exhausted {rule.name} {charged} {charge} {rule.quota}" or charged + charge <= rule.quota:
        return []
    return [one for one in run.hypotheses if one.refused(area, charged)]


def allocation_text(run: Run, area: int, charge: int) -> str:
    """The replies that an allocation can have."""
    rule, values = run.known.areas[area], run.account(area)
    room = sums.up_to(max(rule.quota - charge, -1))
    texts = ["ok"] if values & room else []
    if values & ~room:
        texts.append(f"exhausted {rule.name} {shown_values(values & ~room)} {charge} {rule.quota}")
    return " or ".join(texts)


# ------------------------------------------------------------- other commands

def judge_phase(run: Run, command: Command, got: Optional[str]) -> None:
    """`flip`, `scavenge` and `reclaim`."""
    word, pages = phase_word(run, got or "")
    left = [one for one in run.hypotheses if word in one.replies_to(command)]
    if not left:
        raise run.replies.wrong("phase", phase_text(run, command), got)
    run.hypotheses = left
    for one in left:
        one.collect(command, word, pages)
    if word in ("flipped", "reclaimed"):
        run.hypotheses = explaining.exact_again(run.known, left)


def phase_word(run: Run, got: str) -> Tuple[str, int]:
    """The first word of a reply, if the reply is spelled right, and the pages of `flipped`; else an empty word."""
    if got in PHASE_WORDS:
        return got, 0
    pages = number(got[len("flipped "):], 0, 16 * run.known.space.regions) if got.startswith("flipped ") else None
    return ("flipped", pages) if pages is not None else ("", 0)


def phase_text(run: Run, command: Command) -> str:
    """The replies that the command can have."""
    possible = set().union(*(one.replies_to(command) for one in run.hypotheses))
    shown = {"flipped": f"flipped 0..{16 * run.known.space.regions}"}
    return " or ".join(shown.get(word, word) for word in sorted(possible))


def judge_page_out(run: Run, _: Command, got: Optional[str]) -> None:
    if got != "ok":
        raise run.replies.wrong("value", "ok", got)


def judge_stats(run: Run, _: Command, __: Optional[str]) -> None:
    """A line for each area."""
    for area, rule in enumerate(run.known.areas):
        got = run.replies.take()
        words = (got or "").split(" ")
        charged = number(words[2]) if len(words) == 4 else None
        if charged is None or got != f"area {rule.name} {charged} {rule.quota}" or not run.keep_with_account(area, charged):
            expected = f"area {rule.name} {shown_values(run.account(area))} {rule.quota}"
            raise run.replies.wrong("stats", expected, got, area + 1)


def judge_dump(run: Run, _: Command, __: Optional[str]) -> None:
    wanted, replies = dumping.lines_of(run.known.world, run.known.graph), run.replies
    if replies.lines[replies.at:replies.at + len(wanted)] == wanted:
        replies.at += len(wanted)
        return
    for row, expected in enumerate(wanted, 1):
        got = replies.take()
        if got != expected:
            raise replies.wrong("dump", expected, got, row)


OTHERS: Dict[str, Callable[[Run, Command, Optional[str]], None]] = {
    "flip": judge_phase, "scavenge": judge_phase, "reclaim": judge_phase, "page-out": judge_page_out,
    "stats": judge_stats, "dump": judge_dump,
    "cons": judge_cons, "list": judge_list, "make": judge_make, "grow": judge_grow,
    **dict.fromkeys(PROGRAM, judge_program),
}
SEVERAL_LINES = {"stats", "dump"}
