"""Judges whether replies and a status are those of some run of an input.

    from lib.judge.judging import judge
    judged = judge(data, replies, status)

Many replies are fixed by the definitions (docs/MEANING.md), some are free: how many pages a flip finds to scan, when the
scan of a collection has finished, and which unreachable objects a reclaim keeps. The input has no comments.
"""
import gc
from contextlib import contextmanager
from typing import Dict, Iterator, List, NamedTuple, Optional

from ..inputs import verdict
from ..inputs.verdict import Verdict
from . import answers
from .checks import Run
from .judged_lines import NOTHING, Replies, Wrong


class First(NamedTuple):
    """The first wrong reply: the line of its command in the input, the command's number from 1, its text, the
    expected text, the actual text, and the kind of the error; `row` is the line of the reply if it should have several.

    The kinds: value, wrong-type, no-field, exhausted, eq, block, stats, dump, phase (flip, scavenge and reclaim),
    `fault` (which isn't allowed), missing, cut (the last line has no line feed), extra, error (a line `error ..` that
    should be another, or is none), status. The last four may be found after the last command; then the line is that
    of `end`, or the one that is refused."""
    line: int
    number: int
    command: str
    expected: str
    got: str
    kind: str
    row: Optional[int] = None


class Judged(NamedTuple):
    """How many replies are right, and of them how many are the reference's (`same`) and how many aren't (`free`); both
    are None if there was no reference. `wrong` is 0 or 1, and the commands after the first wrong reply aren't judged.
    `relaxed` has the relaxations of the judge that were needed, each with the first command that needed it."""
    right: int
    same: Optional[int]
    free: Optional[int]
    wrong: int
    unjudged: int
    first: Optional[First]
    status: int
    wanted_status: int
    faults: int
    relaxed: Dict[str, int]


def judge(data: bytes, output: bytes, status: int, reference: Optional[bytes] = None, faults: int = 0) -> Judged:
    """Judges the output and the status of a run of this input, which may reply `fault` at most `faults` times. The reference is
    an output that is known to be right."""
    with no_cycles():
        return judged(data, output, status, reference, faults)


@contextmanager
def no_cycles() -> Iterator[None]:
    """Without searches for cycles of objects, which a tenth of the time would go to. The judge makes none."""
    was_on = gc.isenabled()
    gc.disable()
    try:
        yield
    finally:
        if was_on:
            gc.enable()


def judged(data: bytes, output: bytes, status: int, reference: Optional[bytes], faults: int) -> Judged:
    found = verdict.judge(data)
    replies = Replies(output)
    ends: List[int] = []
    run = Run(found.so_far, replies, faults)
    try:
        for command in found.commands:
            run.judge(command)
            ends.append(replies.at)
        judge_ending(found, replies)
        judge_status(found, status)
        first = None
    except Wrong as wrong:
        first = first_of(data, found, len(ends), wrong)
    right = len(ends)
    same = None if reference is None else count_same(found, replies.lines, ends, reference)
    unjudged = max(0, len(found.commands) - right - 1) if first is not None else 0
    return Judged(right, same, None if same is None else right - same, int(first is not None), unjudged, first, status,
                  found.status, faults - run.faults, run.known.relaxed)


def relaxed_text(relaxed: Dict[str, int]) -> str:
    """Which relaxations were needed, each with the first command that needed it; nothing if there were none."""
    parts = [f"{how} from command {number}" for how, number in sorted(relaxed.items(), key=lambda item: item[1])]
    return "relaxed: " + ", ".join(parts) if parts else ""


def judge_ending(found: Verdict, replies: Replies) -> None:
    """The replies are followed by the error line of a refused input, and nothing else."""
    error = found.error()
    if error is not None:
        got = replies.take()
        if got != error:
            is_reply = got is not None and not answers.is_error(got)
            raise replies.wrong("extra" if is_reply else "error", error, got)
    rest = replies.lines[replies.at:] + [replies.piece] * (replies.piece != "")
    if rest:
        raise Wrong("error" if answers.is_error(rest[0]) else "extra", NOTHING, rest[0])


def judge_status(found: Verdict, status: int) -> None:
    if status != found.status:
        raise Wrong("status", f"status {found.status}", f"status {status}")


def first_of(data: bytes, found: Verdict, right: int, wrong: Wrong) -> First:
    """The first wrong reply: the one that follows this number of right ones."""
    line = found.lines[right] if right < len(found.lines) else found.line
    lines = verdict.lines_of(data)
    text = lines[line - 1] if line <= len(lines) else ""
    return First(line, right + 1, text, wrong.expected, wrong.got, wrong.kind, wrong.row)


def count_same(found: Verdict, lines: List[str], ends: List[int], reference: bytes) -> int:
    """How many of the right replies, which end at these places, are the reference's."""
    areas, other = len(found.so_far.areas), answers.lines_of(reference)
    same = start = at = 0
    for command, end in zip(found.commands, ends):
        count = answers.taken(command[0], areas, other, at) if at < len(other) else 0
        same += lines[start:end] == other[at:at + count]
        start, at = end, at + count
    return same
