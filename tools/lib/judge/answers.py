"""An output as a value: the reply lines of each command, the error line, and the lines after it."""
from typing import List, NamedTuple, Optional

from ..inputs.session import Command, Session


class Answer(NamedTuple):
    """A command and the lines of its reply. A dump has many, stats one for each area, each other command one."""
    command: Command
    lines: List[str]

    @property
    def words(self) -> List[str]:
        """The words of the reply's first line."""
        return self.lines[0].split(" ")


class Answers(NamedTuple):
    """The commands that were answered, in order; the error line; and lines that answer no command."""
    answers: List[Answer]
    error: Optional[str]
    rest: List[str]


def lines_of(output: bytes) -> List[str]:
    """The lines of an output; a last piece without a line feed is a line too."""
    lines = output.decode("latin-1").split("\n")
    if lines[-1] == "":
        lines.pop()
    return lines


def is_error(line: str) -> bool:
    """The line ends a run: `error line N: REASON`, or `error: CAUSE`."""
    return line.startswith(("error line ", "error: "))


def taken(head: str, areas: int, lines: List[str], at: int) -> int:
    """How many of the lines from `at` on are the reply to a command with this first word."""
    if head == "stats":
        wanted = areas
    elif head == "dump" and lines[at] != "fault":
        wanted = next((end - at + 1 for end in range(at, len(lines)) if lines[end] == "end-world"), len(lines))
    else:
        wanted = 1
    last = min(at + wanted, len(lines))
    return next((end for end in range(at, last) if is_error(lines[end])), last) - at


def split(session: Session, output: bytes) -> Answers:
    """Gives each command of the session its lines of the output, as long as there are lines."""
    lines, areas, at = lines_of(output), len(session.areas), 0
    answers = []
    for command in session.commands:
        if at == len(lines) or is_error(lines[at]):
            break
        count = taken(command.head, areas, lines, at)
        answers.append(Answer(command, lines[at:at + count]))
        at += count
    error = lines[at] if at < len(lines) and is_error(lines[at]) else None
    return Answers(answers, error, lines[at + (error is not None):])
