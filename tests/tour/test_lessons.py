"""Each lesson can be run, has all parts of a lesson, and shows the replies that lispm writes."""
import re
import unittest
from functools import lru_cache
from typing import List

import tour
from tour import LESSONS, run

from lib import program
from lib.inputs import session
from lib.judge import answers
from lib.pictures import showing


@lru_cache(maxsize=None)
def whole(number: int) -> str:
    """What a lesson shows."""
    return run(str(number)).output


class Lessons(unittest.TestCase):
    def test_there_are_fourteen(self) -> None:
        self.assertEqual([lesson.number for lesson in LESSONS], list(range(1, 15)))
        self.assertEqual(len(run("--list").output.splitlines()), 14)

    def test_each_has_a_question_and_a_short_session(self) -> None:
        for lesson in LESSONS:
            with self.subTest(lesson.number):
                self.assertTrue(lesson.question.endswith("?"))
                self.assertLessEqual(len(lesson.session.commands), 25)
                self.assertTrue(lesson.pictured() or lesson.charts())
                self.assertTrue(lesson.marked.asked, "a quiz needs at least one question")
                self.assertNotIn("To be written", lesson.see)

    def test_the_marks_of_a_quiz_are_no_part_of_the_input(self) -> None:
        marked = "; A title.\nlispm-world 1\ntrace\nset 0 1                  ; ?\nend\n"
        self.assertEqual(session.parse(marked.encode()).text(), b"lispm-world 1\ntrace\nset 0 1\nend\n")
        plain = marked[marked.index("lispm"):].encode()
        self.assertEqual(session.parse(plain).text(), plain)

    @tour.needs_lispm
    def test_each_shows_its_replies(self) -> None:
        for lesson in LESSONS:
            with self.subTest(lesson.number):
                said = answers.split(lesson.session, program.replay(tour.LISPM, lesson.session.text()).output)
                self.assertIsNone(said.error)
                shown = whole(lesson.number).splitlines()
                for answer in said.answers:
                    for line in showing.reply_lines(answer.command.text, answer.lines):
                        self.assertIn(f"    {line}", shown)
                self.assertIn(lesson.question, shown)
                self.assertEqual(len(tour.lines_with("\n".join(shown), "Exercise ")), 3)

    @tour.needs_inside
    def test_each_shows_its_pictures(self) -> None:
        for lesson in LESSONS:
            with self.subTest(lesson.number):
                shown = whole(lesson.number)
                headings = re.findall(r"(?m)^  \| \w+ command ([0-9]+): (.*) -> ", shown)
                wanted = [(str(number), lesson.session.commands[number - 1].text) for number in lesson.pictured()]
                self.assertEqual(headings, wanted)

    @tour.needs_lispm
    def test_without_pictures_if_there_is_no_machine(self) -> None:
        ended = run("6", inside="/nowhere")
        self.assertEqual(ended.status, 0)
        self.assertEqual(ended.output.count("  | a picture: "), len(LESSONS[5].pictured()))


class Quiz(unittest.TestCase):
    @tour.needs_lispm
    def test_right_and_wrong_answers_are_counted(self) -> None:
        for lesson in (LESSONS[1], LESSONS[4]):
            said = answers.split(lesson.session, program.replay(tour.LISPM, lesson.session.text()).output).answers
            asked = [answer.lines[0] for answer in said if answer.command.line in lesson.marked.asked]
            ended = run("--quiz", str(lesson.number), given="\n".join(asked) + "\n")
            self.assertEqual(ended.output.splitlines()[-1], f"{len(asked)} of {len(asked)} right")
            ended = run("--quiz", str(lesson.number), given="\n".join(["never"] + asked[1:]) + "\n")
            self.assertEqual(ended.output.splitlines()[-1], f"{len(asked) - 1} of {len(asked)} right")

    @tour.needs_lispm
    def test_it_may_end_early(self) -> None:
        self.assertEqual(run("--quiz", "2", given="nil\n").output.splitlines()[-1], "1 of 1 right")


class Mistakes(unittest.TestCase):
    """Each is reported in one line, with a status."""

    def test_words(self) -> None:
        mistakes: List[List[str]] = [[], ["99"], ["one"], ["1", "--quiz", "1"], ["1", "--check", "1"], ["1", "--odd"]]
        for words in mistakes:
            ended = run(*words)
            self.assertEqual((ended.status, ended.output, len(ended.errors.splitlines())), (2, "", 1), words)

    @tour.needs_lispm
    def test_exercises_and_files(self) -> None:
        for words in (["1", "--check", "4", "-"], ["1", "--check", "x", "-"], ["1", "--check", "2", "/nowhere"]):
            ended = run(*words)
            self.assertEqual((ended.status, ended.output, len(ended.errors.splitlines())), (2, "", 1), words)

    def test_a_program_that_is_missing(self) -> None:
        ended = run("1", lispm="/nowhere")
        self.assertEqual((ended.status, ended.output), (69, ""))
        self.assertIn("/nowhere", ended.errors)


if __name__ == "__main__":
    unittest.main()
