"""The lessons of the tour: a folder each, with a session, a page of what to see, and three exercises.

In a session a comment may be a mark. A mark isn't shown; it requests something in its place:

    ; picture                       a picture of the machine after the last command
    ; chart COUNT, SIZE N ..        a chart of how a count changes from command to command, for these values of a size
    ; census                        a census of the dump before it
    ; why K                         why object K of the dump before it is held
"""
import os
import re
from typing import List, NamedTuple

from .. import tool
from ..inputs import session
from ..pictures import showing
from ..program import TOP

HERE = os.path.join(TOP, "examples", "tour")
MARK = re.compile(r"(picture|census|why [0-9]+|chart [a-z ]+, [a-z]+( [0-9]+)+)$")
TASKS = 3


class Lesson(NamedTuple):
    """A lesson: its number, its folder, its session, and the text that says what to see in it."""
    number: int
    folder: str
    marked: showing.Marked
    see: str

    @property
    def name(self) -> str:
        """The folder's name without its number."""
        return os.path.basename(self.folder)[3:].replace("-", " ")

    @property
    def question(self) -> str:
        """The session's first comment."""
        return self.marked.lines[0].lstrip("; ")

    @property
    def session(self) -> session.Session:
        return self.marked.session

    def task_path(self, number: int) -> str:
        if not 1 <= number <= TASKS:
            raise tool.ToolError(f"no exercise {number}: each lesson has {TASKS}")
        return os.path.join(self.folder, "tasks", str(number))

    def command_before(self, line: int) -> int:
        """The number of the last command before a line of the session; 0 if there is none."""
        return sum(command.line < line for command in self.session.commands)

    def pictured(self) -> List[int]:
        """The numbers of the commands after which the machine is shown."""
        lines = enumerate(self.marked.lines, 1)
        return [self.command_before(at) for at, line in lines if mark_of(line) == "picture"]

    def charts(self) -> List[str]:
        """The marks of the session's charts."""
        return [mark_of(line) for line in self.marked.lines if mark_of(line).startswith("chart ")]


def mark_of(line: str) -> str:
    """The mark on a line of a session; empty if the line isn't one."""
    text = line[1:].strip() if line.startswith(";") else ""
    return text if MARK.match(text) else ""


def folders() -> List[str]:
    return sorted(name for name in os.listdir(HERE) if re.match(r"[0-9][0-9]-", name))


def read_folder(name: str) -> Lesson:
    folder = os.path.join(HERE, name)
    text = tool.read(os.path.join(folder, "session")).decode()
    see = tool.read(os.path.join(folder, "see.md")).decode()
    return Lesson(int(name[:2]), folder, showing.marked(text), see)


def all_lessons() -> List[Lesson]:
    return [read_folder(name) for name in folders()]


def lesson(word: str) -> Lesson:
    """A lesson by its number."""
    found = [name for name in folders() if word.isdigit() and int(name[:2]) == int(word)]
    if not found:
        raise tool.ToolError(f"no lesson {word!r}: see examples/tour/run --list")
    return read_folder(found[0])
