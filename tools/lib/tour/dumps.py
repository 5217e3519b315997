"""What lispm's modes `census` and `why` write about a dump that a session wrote."""
from typing import List

from .. import program
from ..judge import answers
from .lessons import Lesson


def words_of(mark: str) -> List[str]:
    """The arguments of lispm for a mark: `census`, or `why K`."""
    return ["census"] if mark == "census" else ["why", "--object", mark[len("why "):]]


def asked(lesson: Lesson, line: int, mark: str, lispm: str) -> List[str]:
    """The command, and what it writes about the dump of the last command before this line of the session."""
    cut, words = lesson.session.cut(lesson.command_before(line)), words_of(mark)
    dump = answers.split(cut, program.replay(lispm, cut.text()).output).answers[-1].lines
    ended = program.run(lispm, words, "".join(f"{one}\n" for one in dump).encode())
    return ["$ lispm " + " ".join(words) + " <DUMP", *answers.lines_of(ended.output)]
