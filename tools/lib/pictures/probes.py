"""The accounts and the phase after each command of a session, found by commands that change nothing.

`stats` and `scavenge 0` are inserted after each command, and their replies are removed again. Neither reads a word or
scans a unit, so the other replies are unchanged, which is tested.
"""
from typing import List, NamedTuple

from .. import program, tool
from ..inputs.session import Command, Session
from ..judge import answers

PROBES = ("stats", "scavenge 0")


class Row(NamedTuple):
    """A command, its reply's first line, the phase after it, and each area's account and quota."""
    command: Command
    reply: str
    phase: str
    accounts: List[int]
    quotas: List[int]


def probed(trace: Session) -> Session:
    """The session with the probes after each command."""
    commands: List[Command] = []
    for command in trace.commands:
        texts = [command.text, *PROBES]
        commands += [Command(command.line, len(commands) + at, text) for at, text in enumerate(texts, 1)]
    return trace._replace(commands=commands)


def run(trace: Session, lispm: str) -> answers.Answers:
    found = answers.split(trace, program.replay(lispm, trace.text()).output)
    if found.error is not None:
        raise tool.ToolError(found.error, tool.WRONG)
    return found


def row_of(command: answers.Answer, stats: answers.Answer, phase: answers.Answer) -> Row:
    lines = [line.split(" ") for line in stats.lines]
    accounts, quotas = [int(words[2]) for words in lines], [int(words[3]) for words in lines]
    return Row(command.command, command.lines[0], phase.lines[0], accounts, quotas)


def rows(trace: Session, lispm: str) -> List[Row]:
    """A row for each command, by one run beside the plain one."""
    plain, beside = run(trace, lispm).answers, run(probed(trace), lispm).answers
    found = [row_of(*beside[at:at + 3]) for at in range(0, len(beside), 3)]
    if [answer.lines[0] for answer in plain] != [row.reply for row in found]:
        raise tool.ToolError("the probes changed a reply, which must not be", tool.WRONG)
    return [row._replace(command=answer.command) for row, answer in zip(found, plain)]
