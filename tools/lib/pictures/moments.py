"""The machine at a moment of a session: after command N, counted from 1, without comments.

The machine is deterministic, so the input cut after a command is the run up to it.
"""
import argparse
import os
from concurrent.futures import ThreadPoolExecutor
from typing import Iterable, Iterator, List, NamedTuple

from .. import program, tool
from ..inputs.session import Session
from ..judge import answers
from . import inside
from .inside import Machine


class Moment(NamedTuple):
    """A command, its reply, the machine after it, and what lispm_inside wrote. The opening has no command."""
    number: int
    command: str
    reply: List[str]
    machine: Machine
    output: str


def add_words(words: argparse.ArgumentParser) -> None:
    """Adds --after N[,N..] and --inside PATH."""
    words.add_argument("--after", metavar="N[,N..]")
    program.add_option(words, "lispm_inside")


def numbers_of(after: str, count: int) -> List[int]:
    """The numbers that --after names; without it the last command's."""
    if after is None:
        return [count]
    pieces = after.split(",")
    if not all(piece.isdigit() for piece in pieces):
        raise tool.ToolError(f"--after wants numbers of commands with commas between them, not {after!r}")
    numbers = [int(piece) for piece in pieces]
    for number in numbers:
        if number > count:
            raise tool.ToolError(f"--after {number}: the session has {count} commands")
    return numbers


def refused(trace: Session, output: bytes) -> str:
    """Why there is no machine: the error line, by the numbers of the file."""
    told = [line for line in answers.lines_of(output) if answers.is_error(line)]
    if not told:
        return "lispm_inside gave no machine"
    words = told[-1].split(" ")
    if words[1] != "line":
        return told[-1]
    number = int(words[2].rstrip(":"))
    return f"error line {trace.line_in_file(number)}: {' '.join(words[3:])}"


def at(trace: Session, number: int, inside_path: str, fail: int = 0) -> Moment:
    """The moment after a command; 0 is the opening."""
    cut = trace.cut(number)
    words = ["--fail", str(fail)] if fail else []
    ended = program.run(inside_path, words, cut.text())
    replies, machine = inside.split(ended.output)
    if machine is None:
        raise tool.ToolError(refused(trace, ended.output), tool.WRONG)
    given = answers.split(cut, replies).answers
    last = given[-1] if given else None
    return Moment(number, last.command.text if last else "", last.lines if last else [], machine, ended.output.decode("latin-1"))


def each(trace: Session, numbers: Iterable[int], inside_path: str, fail: int = 0) -> Iterator[Moment]:
    """The moments after these commands, in this order. Each is a run of its own, and a few run at once."""
    with ThreadPoolExecutor(os.cpu_count()) as pool:
        yield from pool.map(lambda number: at(trace, number, inside_path, fail), numbers)
