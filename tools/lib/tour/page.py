"""The pages of the tour: docs/TOUR.md, and docs/tour/NN-NAME.md for each lesson, made from the lessons."""
import os
import re
from typing import Dict, Iterator, List

from . import charts, dumps, lessons, tasks
from .. import program, tool
from ..pictures import showing
from .lessons import Lesson

CONTENTS = "TOUR.md"
FOLDER = "tour"
PICTURES = "pictures"
# From which the time for a lesson is estimated.
WORDS_A_MINUTE, SECONDS_A_COMMAND, SECONDS_A_PICTURE, MINUTES_AN_EXERCISE = 120, 10, 45, 5


def picture_name(lesson: Lesson) -> str:
    """The path of the lesson's picture, relative to docs."""
    return f"{PICTURES}/tour-{lesson.number:02}.svg"


def page_name(lesson: Lesson) -> str:
    """The path of the lesson's page, relative to docs."""
    return f"{FOLDER}/{os.path.basename(lesson.folder)}.md"


def heading(lesson: Lesson) -> str:
    return f"{lesson.number}. {lesson.name.capitalize()}"


def link(lesson: Lesson, text: str) -> str:
    """A link from one lesson's page to another's."""
    return f"[{text}]({os.path.basename(page_name(lesson))})"


# ------------------------------------------------------------------- a lesson's page

def part_lines(lesson: Lesson, part: showing.Part, lispm: str) -> List[str]:
    """A line of the session with its replies, or what a mark requests about a dump."""
    mark = lessons.mark_of(part.text)
    if mark:
        return [] if mark.startswith(("picture", "chart ")) else dumps.asked(lesson, part.number, mark, lispm)
    if part.text == ";":
        return [""]
    return [part.text] if part.is_comment else showing.reply_lines(part.text, part.replies)


def session_lines(lesson: Lesson, lispm: str) -> Iterator[str]:
    """The session with its replies, without its first comment and its marks."""
    output = program.replay(lispm, lesson.session.text()).output
    if showing.leftover(lesson.marked, output):
        raise tool.ToolError(f"the session of lesson {lesson.number} was not answered completely", tool.WRONG)
    for part in showing.parts(lesson.marked, output)[1:]:
        yield from part_lines(lesson, part, lispm)


def alt_text(lesson: Lesson) -> str:
    """What the picture shows, for readers who can't see it."""
    commands = lesson.session.commands
    moments = "; ".join(f"command {number}, {commands[number - 1].text}" for number in lesson.pictured())
    return f"memory after {moments}" if moments else charts.title(*charts.read_mark(lesson.charts()[0]))


def task_line(lesson: Lesson, number: int) -> str:
    path = os.path.relpath(lesson.task_path(number), os.path.join(lessons.TOP, "docs", FOLDER))
    return f"{number}. {' '.join(tasks.read(lesson.task_path(number)).text)} ([exercise {number}]({path}))"


def see_text(lesson: Lesson, others: List[Lesson]) -> str:
    """What to see; the name of another lesson becomes a link to it."""
    named = {other.number: other for other in others}
    return re.sub(r"\b[Ll]esson ([0-9]+)\b", lambda found: link(named[int(found.group(1))], found.group(0)), lesson.see.rstrip())


def way_line(lesson: Lesson, others: List[Lesson]) -> str:
    """Links to the lesson before, the contents, and the lesson after."""
    at = [other.number for other in others].index(lesson.number)
    before = [f"Previous: {link(other, heading(other))}" for other in others[max(0, at - 1):at]]
    after = [f"Next: {link(other, heading(other))}" for other in others[at + 1:at + 2]]
    return " | ".join(before + [f"[All lessons](../{CONTENTS})"] + after)


def lesson_page(lesson: Lesson, others: List[Lesson], lispm: str) -> str:
    """The page of one lesson."""
    run, folder = f"examples/tour/run {lesson.number}", os.path.basename(lesson.folder)
    lines = [f"# {heading(lesson)}", "", way_line(lesson, others), "", f"*{lesson.question}*", "",
             f"About {reading_minutes(lesson)} minutes to read, and {exercise_minutes()} for the exercises. `{run}` shows this lesson in "
             f"a terminal; its session is [examples/tour/{folder}/session](../../examples/tour/{folder}/session). In a browser it is at "
             f"`web/lispm.html#session=lesson/{lesson.number}` ([the page](../../web/lispm.html)), step by step, with its exercises.", "", "## Session", ""]
    lines += [f"    {line}".rstrip() for line in session_lines(lesson, lispm)]
    lines += ["", "## Picture", "", f"![{alt_text(lesson)}](../{picture_name(lesson)})", "", "## What to see", "", see_text(lesson, others),
              "", "## Exercises", ""]
    lines += [task_line(lesson, number) for number in range(1, lessons.TASKS + 1)]
    return "\n".join(lines + ["", f"`{run} --check K FILE` checks the answer to exercise K in FILE.", "", way_line(lesson, others)]) + "\n"


# ------------------------------------------------------------------- the contents

def reading_minutes(lesson: Lesson) -> int:
    """How long a lesson takes to read, estimated from its length."""
    comments = [line for line in lesson.marked.lines if line.startswith(";") and not lessons.mark_of(line)]
    words = len(" ".join(comments + [lesson.see]).split())
    pictures = max(1, len(lesson.pictured()))
    seconds = 60 * words / WORDS_A_MINUTE + SECONDS_A_COMMAND * len(lesson.session.commands) + SECONDS_A_PICTURE * pictures
    return round(seconds / 60)


def exercise_minutes() -> int:
    return MINUTES_AN_EXERCISE * lessons.TASKS


def duration(minutes: int) -> str:
    return f"{minutes} min" if minutes < 60 else f"{minutes // 60} h {minutes % 60} min"


def contents_lines(all_lessons: List[Lesson]) -> List[str]:
    """A table of the lessons with their questions, and the time that they take."""
    lines = ["| lesson | question | to read | exercises |", "|---|---|---|---|"]
    exercises = duration(exercise_minutes())
    lines += [f"| [{heading(one)}]({page_name(one)}) | {one.question} | {duration(reading_minutes(one))} | {exercises} |" for one in all_lessons]
    reading = sum(map(reading_minutes, all_lessons))
    return lines + [f"| all | | {duration(reading)} | {duration(exercise_minutes() * len(all_lessons))} |"]


def contents(all_lessons: List[Lesson]) -> str:
    """docs/TOUR.md: the opening, with the table in the place of its line `LESSONS`."""
    opening = tool.read(os.path.join(lessons.HERE, "opening.md")).decode().rstrip().split("\n")
    at = opening.index("LESSONS")
    return "\n".join(opening[:at] + contents_lines(all_lessons) + opening[at + 1:]) + "\n"


def pages(lispm: str) -> Dict[str, str]:
    """The text of each page by its path, relative to docs."""
    all_lessons = lessons.all_lessons()
    found = {page_name(one): lesson_page(one, all_lessons, lispm) for one in all_lessons}
    return {CONTENTS: contents(all_lessons), **found}
