"""The verdict on an input: whether it is whole, or the first line that is refused and why.

For each line the reasons are tested in the order of the table in docs/FORMATS.md.
"""
from typing import List, NamedTuple, Optional, Tuple

from .line_kinds import COMMANDS, read_words
from .quick_lines import QuickLines
from .refusal import Refused
from .spelling import is_well_formed
from .values import World
from .world_lines import WorldLines

LONGEST = 32768          # bytes of a line, without its line feed
LIMIT = 1 << 40          # bytes of an input

Command = Tuple          # the command's word, then the meaning of each word after it


class Verdict(NamedTuple):
    """The status, and if it isn't 0 the line that is refused, the reason, and the place of the wrong word, if
    it is one word. `world` is None if `trace` wasn't reached, and `so_far` is the world up to the refused line.
    `commands` are those before that line, and `lines` are their numbers."""
    status: int
    line: int
    reason: str
    place: Optional[int]
    world: Optional[World]
    so_far: World
    commands: List[Command]
    lines: List[int]

    def error(self) -> Optional[str]:
        """The error line, if there is one."""
        return f"error line {self.line}: {self.reason}" if self.status else None


class Reading:
    """An input that is read line by line."""

    def __init__(self, limit: int):
        self.limit, self.start = limit, 0
        self.world_lines = WorldLines()
        self.commands: List[Command] = []
        self.lines: List[int] = []
        self.quick: Optional[QuickLines] = None
        self.has_ended = False

    def take(self, n: int, line: str, has_feed: bool) -> None:
        """Takes line n, or raises Refused."""
        self.test_length(line, has_feed)
        if not self.world_lines.is_done:
            self.world_lines.read(n, line)
            return
        if self.quick is None:
            self.quick = QuickLines(self.world_lines.world, read_command)
        command = self.quick.read(line)
        if command[0] == "end":
            self.has_ended = True
            return
        self.commands.append(command)
        self.lines.append(n)

    def take_short(self, n: int, lines: List[str]) -> int:
        """Takes the lines of a trace from line n on, none of which is too long, up to `end` or to the first that is
        refused; answers the number of the next line. A refused line remains for `take`."""
        world, commands, start = self.world_lines.world, self.commands, len(self.commands)
        self.quick = QuickLines(world, read_command)
        known, read = self.quick.known, self.quick.read
        try:
            for line in lines[n - 1:]:
                command = known.get(line) or read(line)
                if command[0] == "end":
                    break
                commands.append(command)
        except Refused:
            pass
        count = len(commands) - start
        self.lines += range(n, n + count)
        self.start += sum(map(len, lines[n - 1:n - 1 + count])) + count
        return n + count

    def test_length(self, line: str, has_feed: bool) -> None:
        if self.has_ended:
            raise Refused("text after end")
        if self.start + min(len(line) + has_feed, LONGEST + 1) > self.limit:
            raise Refused("input too long")
        if len(line) > LONGEST:
            raise Refused("line too long")
        self.start += len(line) + 1

    def verdict(self, line: int, refused: Refused) -> Verdict:
        world, is_done = self.world_lines.world, self.world_lines.is_done
        return Verdict(refused.status, line, refused.reason, refused.place, world if is_done else None, world,
                       self.commands, self.lines)


def lines_of(data: bytes) -> List[str]:
    """The lines of an input; a last piece without a line feed is a line, if it isn't empty. An input without any
    byte is judged as one empty line."""
    lines = data.decode("latin-1").split("\n")
    if len(lines) > 1 and lines[-1] == "":
        lines.pop()
    return lines


def read_command(line: str, world: World) -> Command:
    """The command that a line of the trace says; `end` counts as one. Raises Refused."""
    if not is_well_formed(line):
        raise Refused("bad line")
    words = line.split(" ")
    kind = COMMANDS.get(words[0])
    if kind is None:
        raise Refused("unknown command", place=0)
    return (words[0], *read_words(kind, words, world))


def judge(data: bytes, limit: int = LIMIT) -> Verdict:
    """The verdict on an input."""
    lines, reading, n = lines_of(data), Reading(limit), 1
    last = len(lines) if not data.endswith(b"\n") else 0
    are_short = len(data) <= limit and max(map(len, lines)) <= LONGEST
    try:
        while n <= len(lines):
            if are_short and reading.world_lines.is_done and reading.quick is None:
                n = reading.take_short(n, lines)
                continue
            reading.take(n, lines[n - 1], n != last)
            n += 1
        if not reading.has_ended:
            raise Refused("no end")
    except Refused as refused:
        return reading.verdict(n, refused)
    return reading.verdict(n - 1, Refused("", 0))
