"""What the tests of the tour share: the lessons, and calls of its scripts."""
import os
import subprocess
import unittest
from typing import List, NamedTuple

from lib import program
from lib.tour import lessons, tasks

HERE = os.path.dirname(os.path.realpath(__file__))
TOP = os.path.dirname(os.path.dirname(HERE))
TOUR = os.path.join(TOP, "examples", "tour")
LESSONS = lessons.all_lessons()
EXERCISES = [(lesson, number) for lesson in LESSONS for number in range(1, lessons.TASKS + 1)]
LISPM, INSIDE = program.place("lispm", None), program.place("lispm_inside", None)
has_inside = program.is_there("lispm_inside", None)
needs_lispm = unittest.skipUnless(program.is_there("lispm", None), "lispm isn't built")
needs_inside = unittest.skipUnless(has_inside and program.is_there("lispm", None), "lispm_inside isn't built")


class Ended(NamedTuple):
    status: int
    output: str
    errors: str


def run(*words: str, script: str = os.path.join(TOUR, "run"), given: str = "", lispm: str = LISPM, inside: str = INSIDE) -> Ended:
    """Runs a script of the tour."""
    environment = {**os.environ, "LISPM": lispm, "LISPM_INSIDE": inside}
    ended = subprocess.run([script, *words], input=given.encode(), env=environment, stdout=subprocess.PIPE, stderr=subprocess.PIPE)
    return Ended(ended.returncode, ended.stdout.decode(), ended.stderr.decode())


def solution(lesson: lessons.Lesson, number: int) -> str:
    with open(os.path.join(HERE, "solutions", f"{lesson.number:02}-{number}")) as file:
        return file.read()


def task(lesson: lessons.Lesson, number: int) -> tasks.Task:
    return tasks.read(lesson.task_path(number))


def check(lesson: lessons.Lesson, number: int, answer: str, **more: str) -> Ended:
    return run(str(lesson.number), "--check", str(number), "-", given=answer, **more)


def asked_count(lesson: lessons.Lesson, number: int) -> int:
    """How many predictions an exercise requires."""
    return sum(item.beside == "?" for item in task(lesson, number).items) + len(task(lesson, number).comments("machine ?:"))


def lines_with(text: str, start: str) -> List[str]:
    return [line for line in text.splitlines() if line.startswith(start)]
