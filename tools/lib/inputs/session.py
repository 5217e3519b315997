"""An input as a value: its world, its commands, and the number of each of its lines in the file.

A commented session has lines that begin with `;`, which no input can have. They are left out, as is `; ?` after its
commands, and the other lines keep the numbers that they have in the file. Bytes are read as Latin-1, so every file is a
session, and `text` returns its bytes; `lib.inputs.verdict` decides whether it is a whole input.
"""
import re
from typing import List, NamedTuple, Optional, Union

ASKED = re.compile(r" *; \?$")      # after a command of a commented session: a quiz hides its reply


class Line(NamedTuple):
    """A line, with its number in the file."""
    number: int
    text: str


class Command(NamedTuple):
    """A command of the trace: its line in the file, its number among the commands from 1, and its text."""
    line: int
    number: int
    text: str

    @property
    def words(self) -> List[str]:
        return self.text.split(" ")

    @property
    def head(self) -> str:
        return self.text.partition(" ")[0]


class Session(NamedTuple):
    """The lines up to and with `trace`, the commands, and the lines from `end` on."""
    header: List[Line]
    commands: List[Command]
    ending: List[Line]
    is_commented: bool
    has_last_feed: bool

    @property
    def areas(self) -> List[str]:
        """The names of the areas, in order."""
        lines = [line.text.split(" ") for line in self.header]
        return [words[1] for words in lines if words[0] == "area" and len(words) > 1]

    @property
    def registers(self) -> int:
        """How many registers the world has; 0 if no line has the number."""
        for line in self.header:
            words = line.text.split(" ")
            if words[0] == "space" and len(words) > 3 and words[3].isdigit():
                return int(words[3])
        return 0

    @property
    def lines(self) -> List[Union[Line, Command]]:
        return [*self.header, *self.commands, *self.ending]

    def text(self) -> bytes:
        """The input itself, without comments."""
        lines = [line.text for line in self.lines]
        data = "\n".join(lines).encode("latin-1")
        return data + b"\n" if self.has_last_feed and lines else data

    def cut(self, count: int, *more: str) -> "Session":
        """The input cut after this many commands; these further commands, if any, and `end` follow."""
        kept = self.commands[:count]
        last = kept[-1].line if kept else len(self.header)
        added = [Command(last, len(kept) + at, text) for at, text in enumerate(more, 1)]
        return Session(self.header, kept + added, [Line(last, "end")], self.is_commented, True)

    def line_in_file(self, line: int) -> int:
        """The number that line `line` of the input has in the file, comments counted."""
        if not 1 <= line <= len(self.lines):
            return line
        found = self.lines[line - 1]
        return found.number if isinstance(found, Line) else found.line

    def command_at(self, line: int) -> Optional[Command]:
        """The command on this line of the file."""
        return next((command for command in self.commands if command.line == line), None)


def parse(data: bytes) -> Session:
    """The session that these bytes spell."""
    pieces = data.decode("latin-1").split("\n")
    has_last_feed = len(pieces) > 1 and pieces[-1] == ""
    if pieces[-1] == "":
        pieces.pop()
    lines = [Line(at, text) for at, text in enumerate(pieces, 1) if not text.startswith(";")]
    if len(lines) < len(pieces):
        lines = [line._replace(text=ASKED.sub("", line.text)) for line in lines]
    texts = [line.text for line in lines]
    trace = texts.index("trace") + 1 if "trace" in texts else len(lines)
    end = texts.index("end", trace) if "end" in texts[trace:] else len(lines)
    commands = [Command(line.number, at, line.text) for at, line in enumerate(lines[trace:end], 1)]
    return Session(lines[:trace], commands, lines[end:], len(lines) < len(pieces), has_last_feed)
