"""Exercises: a world and a trace in which the reader supplies commands or predicts replies, and the conditions for both.

The first comments of an exercise are its text. A command is followed by `; REPLY`, the reply that it has to get (of several
lines with ` | ` between them), or by `; ?` if the reader predicts the reply. Further comments:

    ; your commands                 the place of the reader's commands
    ; at most N commands            how many they may be (`1 command`)
    ; only WORD, ..                 the reader's commands begin with these words
    ; without WORD, ..              none of the reader's commands begins with these
    ; machine: PATTERN              some line that lispm_inside writes matches; `*` is anything, `?` one character
    ; machine, N times: PATTERN     exactly N lines match
    ; machine ?: START              the reader predicts the rest of the line of lispm_inside that begins with START
    ; that is: TEXT                 the condition before it, for the reader
"""
import re
from fnmatch import fnmatchcase
from typing import Callable, Dict, List, NamedTuple, Optional

from .. import program, tool
from ..inputs import session
from ..judge import answers
from ..pictures import inside, showing

BETWEEN = " | "
YOURS = "your commands"
THAT_IS = "that is:"
BESIDE = re.compile(r"^(.*?) +; (.*)$")


class Item(NamedTuple):
    """A line of an exercise: an input line with its required reply beside it (`?` if it is to be predicted), or a comment."""
    text: str
    beside: Optional[str]
    is_comment: bool


class Task(NamedTuple):
    """An exercise: its text, and its lines from the first line of the world on."""
    text: List[str]
    items: List[Item]

    def comments(self, start: str) -> List[str]:
        """The rest of each comment that begins with `start`."""
        return [item.text[len(start):].strip() for item in self.items if item.is_comment and item.text.startswith(start)]

    @property
    def is_prediction(self) -> bool:
        return not self.comments(YOURS)


def in_words(task: Task, rule: str) -> str:
    """What a condition on the machine means, from the comment `that is:` after it; empty if there is none."""
    pairs = zip(task.items, task.items[1:])
    return next((after.text[len(THAT_IS):].strip() for item, after in pairs if item.is_comment and item.text == rule
                 and after.is_comment and after.text.startswith(THAT_IS)), "")


def shown_lines(task: Task) -> List[str]:
    """The lines of an exercise for a reader: a condition on the machine is shown in words, if it has words."""
    lines = []
    for item in task.items:
        words = in_words(task, item.text) if item.is_comment else ""
        if words:
            lines.append(f"; {'predict' if item.text.startswith('machine ?:') else 'condition'}: {words}")
        elif not item.is_comment:
            lines.append(item.text if item.beside is None else f"{item.text:24} ; {item.beside}")
        elif not item.text.startswith(THAT_IS):
            lines.append(f"; {item.text}")
    return lines


class Result(NamedTuple):
    """Lines that show the replies, the conditions that aren't met, and those that couldn't be checked."""
    lines: List[str]
    wrong: List[str]
    unseen: List[str]


def item_of(line: str) -> Item:
    if line.startswith(";"):
        return Item(line[1:].strip(), None, True)
    found = BESIDE.match(line)
    return Item(found.group(1), found.group(2), False) if found else Item(line, None, False)


def read(path: str) -> Task:
    items = [item_of(line) for line in tool.read(path).decode().splitlines()]
    first = next(at for at, item in enumerate(items) if not item.is_comment)
    return Task([item.text for item in items[:first]], items[first:])


def answer_lines(data: bytes) -> List[str]:
    """The lines of an answer, without comments and empty lines."""
    lines = [line.strip() for line in data.decode("latin-1").split("\n")]
    return [line for line in lines if line and not line.startswith(";")]


def filled(task: Task, yours: List[str]) -> List[Item]:
    """The lines of the input, with the reader's commands inserted."""
    found: List[Item] = []
    for item in task.items:
        if item.is_comment:
            found += [Item(line, None, False) for line in yours] if item.text == YOURS else []
        else:
            found.append(item)
    return found


def replies_of(items: List[Item], lispm: str) -> Dict[int, str]:
    """The reply of each command by its line, counted from 1; lines of one reply are joined. A refused input is the reader's mistake."""
    data = "".join(f"{item.text}\n" for item in items).encode("latin-1")
    of = session.parse(data)
    said = answers.split(of, program.replay(lispm, data).output)
    if said.error is not None:
        number = re.match(r"error line ([0-9]+)", said.error)
        line = items[int(number.group(1)) - 1].text if number and int(number.group(1)) <= len(items) else ""
        raise tool.ToolError(f"{said.error}: {line}", tool.WRONG)
    return {answer.command.line: BETWEEN.join(answer.lines) for answer in said.answers}


# ----------------------------------------------------------- conditions

def broken_rules(task: Task, yours: List[str]) -> List[str]:
    """The conditions on the reader's commands that aren't met."""
    heads = [line.split(" ")[0] for line in yours]
    most = [int(said.split(" ")[0]) for said in task.comments("at most ")]
    wrong = [f"{len(yours)} commands, and at most {one} are allowed" for one in most if len(yours) > one]
    for said in task.comments("without "):
        wrong += [f"without {said}, but there is `{line}`" for head, line in zip(heads, yours) if head in said.split(", ")]
    for said in task.comments("only "):
        wrong += [f"only {said}, but there is `{line}`" for head, line in zip(heads, yours) if head not in said.split(", ")]
    return wrong


def machine_lines(items: List[Item], inside_path: str) -> List[str]:
    """The lines that lispm_inside writes about the machine after the last command."""
    data = "".join(f"{item.text}\n" for item in items).encode("latin-1")
    lines = answers.lines_of(program.run(inside_path, [], data).output)
    return lines[lines.index(inside.FIRST):] if inside.FIRST in lines else []


def pattern_rules(task: Task) -> List[str]:
    return task.comments("machine:") + task.comments("machine, ") + task.comments("machine ?:")


def wrong_patterns(task: Task, machine: List[str]) -> List[str]:
    """The conditions on the lines of lispm_inside that aren't met."""
    wrong = [f"the machine has no line `{pattern}`{explained(task, f'machine: {pattern}')}" for pattern in task.comments("machine:")
             if not any(fnmatchcase(line, pattern) for line in machine)]
    for said in task.comments("machine, "):
        times, _, pattern = said.partition(" times: ")
        count = sum(fnmatchcase(line, pattern) for line in machine)
        cause = f"the machine has {count} lines `{pattern}`, and {times} are required{explained(task, f'machine, {said}')}"
        wrong += [cause] * (count != int(times))
    return wrong


def explained(task: Task, rule: str) -> str:
    """The text of a condition in brackets, as the end of a sentence about a condition that isn't met."""
    words = in_words(task, rule)
    return f" (required: {words})" if words else ""


def told_lines(task: Task, machine: List[str]) -> List[str]:
    """What the reader has to predict of the machine."""
    found = []
    for start in task.comments("machine ?:"):
        found += [line[len(start):].strip() for line in machine if line.startswith(start + " ")][:1]
    return found


# --------------------------------------------------------------------- checks

def check_commands(task: Task, yours: List[str], lispm: str, look: Callable[[List[Item]], List[str]]) -> Result:
    """Checks the reader's commands: the replies, and the conditions that aren't met."""
    items = filled(task, yours)
    replies = replies_of(items, lispm)
    lines, wrong = [], broken_rules(task, yours)
    for at, item in enumerate(items, 1):
        if at in replies:
            is_so = item.beside in (None, replies[at])
            lines += showing.reply_lines(item.text, replies[at].split(BETWEEN))
            wrong += [] if is_so else [f"`{item.text}` replies {replies[at]}, and {item.beside} is required"]
    return Result(lines, wrong + wrong_patterns(task, look(items)), [])


def check_told(task: Task, given: List[str], lispm: str, look: Callable[[List[Item]], List[str]]) -> Result:
    """Compares the reader's predictions with the replies."""
    items = filled(task, [])
    replies = replies_of(items, lispm)
    asked = [(item.text, replies[at]) for at, item in enumerate(items, 1) if item.beside == "?"]
    starts = task.comments("machine ?:")
    asked += list(zip(starts, told_lines(task, look(items)))) if starts else []
    given = given + [""] * (len(asked) - len(given))
    lines = [f"{text:24} {reply:24} {'right' if told.split() == reply.split() else 'you said ' + (told or 'nothing')}"
             for (text, reply), told in zip(asked, given)]
    right = sum(told.split() == reply.split() for (_, reply), told in zip(asked, given))
    wrong = [f"{right} of {len(asked)} right"] * (right < len(asked))
    return Result(lines, wrong + [f"{len(given)} answers, and {len(asked)} are required"] * (len(given) > len(asked)), [])


def check(task: Task, answer: bytes, lispm: str, inside_path: Optional[str]) -> Result:
    """Whether an answer solves the exercise. Without lispm_inside the conditions on the machine aren't checked."""
    lines = answer_lines(answer)
    if pattern_rules(task) and inside_path is None:
        kept = [item for item in task.items if not (item.is_comment and item.text.startswith("machine"))]
        found = check(Task(task.text, kept), answer, lispm, None)
        return found._replace(unseen=["lispm_inside isn't built, so the conditions on the machine weren't checked"])

    def look(items: List[Item]) -> List[str]:
        return machine_lines(items, inside_path) if pattern_rules(task) and inside_path is not None else []
    return check_told(task, lines, lispm, look) if task.is_prediction else check_commands(task, lines, lispm, look)
