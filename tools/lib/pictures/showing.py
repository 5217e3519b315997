"""A commented session as a terminal shows it: each command beside its replies, and a quiz over them."""
import re
from typing import Callable, Dict, List, NamedTuple, Optional, Set

from ..inputs import pasted, session
from ..judge import answers


class Marked(NamedTuple):
    """The lines of a commented session, the numbers of those that a quiz asks, which end in `; ?`, and the replies that
    the text has beside its commands."""
    lines: List[str]
    asked: Set[int]
    wanted: Dict[int, List[str]] = {}

    @property
    def session(self) -> session.Session:
        return session.parse("\n".join(self.lines + [""]).encode("utf-8", "surrogateescape"))


def decoded(data: bytes) -> str:
    """The text of a file: UTF-8, in which any other byte is kept as it is."""
    return data.decode("utf-8", "surrogateescape")


def marked(text: str) -> Marked:
    """The lines of a text, with the marks of a quiz taken off, and without replies, indentation and blank lines."""
    lines = text.split("\n")
    lines = lines[:-1] if lines[-1] == "" else lines
    asked = {at for at, line in enumerate(lines, 1) if not line.startswith(";") and session.ASKED.search(line)}
    found = pasted.unpasted([line if line.startswith(";") else session.ASKED.sub("", line) for line in lines])
    return Marked(found.lines, asked, found.wanted)


def as_it_is(text: str) -> Marked:
    """The lines of a text that is no session."""
    lines = text.split("\n")
    return Marked(lines[:-1] if lines[-1] == "" else lines, set())


def parse(data: bytes) -> session.Session:
    """The session in a file that a person has written."""
    return marked(decoded(data)).session


def told(line: str, of: session.Session) -> str:
    """A reply line; of an error line the number in the file, too, if comments make it another."""
    found = re.match(r"error line ([0-9]+): ", line)
    number = of.line_in_file(int(found.group(1))) if found else 0
    return f"{line}   (line {number} of the file)" if found and number != int(found.group(1)) else line


class Quiz:
    """Lets the user predict replies, and counts the right predictions."""

    def __init__(self) -> None:
        self.right = self.asked = 0

    def ask(self, reply: str) -> None:
        """Reads the prediction of one reply."""
        given = input("    ? ")
        self.asked += 1
        self.right += given.split() == reply.split()
        print("    right" if given.split() == reply.split() else f"    no: {reply}")

    def count(self) -> str:
        return f"{self.right} of {self.asked} right"


def is_asked(shown: Marked, line: int, reply: List[str]) -> bool:
    """Whether a quiz has a question about the command on this line: its reply has one line, and it is marked if any command is."""
    return len(reply) == 1 and not answers.is_error(reply[0]) and (line in shown.asked or not shown.asked)


def reply_lines(line: str, replies: List[str], wanted: Optional[List[str]] = None) -> List[str]:
    """A command with its replies beside it, and the first line in which the text has another."""
    firsts = [line] + [""] * (len(replies) - 1)
    rows = [f"{first:24} {reply}".rstrip() for first, reply in zip(firsts, replies or [""])]
    if wanted is not None and wanted != replies:
        at = next((at for at, reply in enumerate(replies) if wanted[at:at + 1] != [reply]), len(replies))
        row = min(at, len(rows) - 1)
        rows[row] = f"{rows[row]:40}  the file has: {wanted[at] if at < len(wanted) else 'nothing'}"
    return rows


class Part(NamedTuple):
    """A line of a session: its number, its text, and the reply lines of a command."""
    number: int
    text: str
    replies: List[str]

    @property
    def is_comment(self) -> bool:
        return self.text.startswith(";")


def parts(shown: Marked, output: bytes) -> List[Part]:
    """The lines of a session with their replies."""
    of = shown.session
    replies = {answer.command.line: [told(line, of) for line in answer.lines] for answer in answers.split(of, output).answers}
    return [Part(at, line, replies.get(at, [])) for at, line in enumerate(shown.lines, 1) if line != pasted.CONTINUED]


def leftover(shown: Marked, output: bytes) -> List[str]:
    """The lines of an output that answer no command."""
    said = answers.split(shown.session, output)
    return [told(line, shown.session) for line in [said.error, *said.rest] if line is not None]


def comment_lines(part: Part) -> List[str]:
    return [part.text.lstrip("; ")]


def show(shown: Marked, output: bytes, quiz: Optional[Quiz] = None, comment: Callable[[Part], List[str]] = comment_lines) -> None:
    """Prints a session: each command beside its replies, each comment as `comment` has it."""
    for part in parts(shown, output):
        if part.is_comment:
            print("".join(f"{line}\n" for line in comment(part)), end="")
        elif quiz and is_asked(shown, part.number, part.replies):
            print(f"    {part.text}")
            quiz.ask(part.replies[0])
        else:
            rows = reply_lines(part.text, part.replies, shown.wanted.get(part.number))
            print("".join(f"    {line}\n" for line in rows), end="")
    print("".join(f"{line}\n" for line in leftover(shown, output)), end="")


def differing(shown: Marked, output: bytes) -> int:
    """How many replies differ from those that the text has beside its commands."""
    replies = {part.number: part.replies for part in parts(shown, output)}
    return sum(wanted != replies[number] for number, wanted in shown.wanted.items())
