"""The solution of each exercise is accepted, and other answers are rejected."""
import os
import unittest

import tour
from lib.tour import tasks
from lib.tour.lessons import Lesson
from tour import EXERCISES, LESSONS, check, solution, task


def wants_machine(lesson: Lesson, number: int) -> bool:
    return bool(tasks.pattern_rules(task(lesson, number)))


class Solutions(unittest.TestCase):
    def test_there_is_one_for_each_exercise(self) -> None:
        wanted = [f"{lesson.number:02}-{number}" for lesson, number in EXERCISES]
        self.assertEqual(sorted(os.listdir(os.path.join(tour.HERE, "solutions"))), wanted)
        self.assertEqual(len(wanted), 42)

    def test_each_exercise_has_a_text_and_something_to_do(self) -> None:
        for lesson, number in EXERCISES:
            with self.subTest(f"{lesson.number}-{number}"):
                found = task(lesson, number)
                self.assertTrue(found.text)
                self.assertTrue(tour.asked_count(lesson, number) if found.is_prediction else found.comments("at most "))

    def test_each_comment_is_a_rule(self) -> None:
        rules = (tasks.YOURS, "at most ", "only ", "without ", "machine: ", "machine, ", "machine ?: ", "that is: ")
        for lesson, number in EXERCISES:
            for item in task(lesson, number).items:
                self.assertTrue(not item.is_comment or item.text.startswith(rules), item.text)

    def test_each_condition_on_the_machine_has_words(self) -> None:
        for lesson, number in EXERCISES:
            found = task(lesson, number)
            for item in found.items:
                if item.is_comment and item.text.startswith("machine"):
                    self.assertTrue(tasks.in_words(found, item.text), item.text)
            self.assertNotIn("; machine", "\n".join(tasks.shown_lines(found)))


def add_tests() -> None:
    """A test that each solution is accepted, and one that an empty answer is rejected."""
    for lesson, number in EXERCISES:
        needs = tour.needs_inside if wants_machine(lesson, number) else tour.needs_lispm

        def is_right(self: unittest.TestCase, lesson: Lesson = lesson, number: int = number) -> None:
            ended = check(lesson, number, solution(lesson, number))
            self.assertEqual((ended.status, ended.output.splitlines()[-1]), (0, "right"), ended.output + ended.errors)

        def is_wrong(self: unittest.TestCase, lesson: Lesson = lesson, number: int = number) -> None:
            ended = check(lesson, number, "never\n" * (tour.asked_count(lesson, number) if task(lesson, number).is_prediction else 0))
            self.assertEqual(ended.status, 1)
            self.assertIn("not yet: ", ended.output)
        setattr(Solutions, f"test_solution_{lesson.number:02}_{number}", needs(is_right))
        setattr(Solutions, f"test_no_answer_{lesson.number:02}_{number}", needs(is_wrong))


add_tests()


class Rules(unittest.TestCase):
    """The conditions on answers."""

    @tour.needs_lispm
    def test_too_many_commands(self) -> None:
        ended = check(LESSONS[0], 3, "set 7 1\n" + solution(LESSONS[0], 3))
        self.assertIn("not yet: 5 commands, and at most 4 are allowed", ended.output)

    @tour.needs_inside
    def test_commands_that_may_not_be(self) -> None:
        self.assertIn("without scavenge", check(LESSONS[6], 3, "scavenge 100\n").output)
        self.assertIn("only scavenge", check(LESSONS[7], 2, "reclaim\n").output)

    @tour.needs_inside
    def test_what_the_machine_must_have(self) -> None:
        ended = check(LESSONS[7], 2, "scavenge 8\n")
        self.assertEqual(ended.status, 1)
        self.assertIn("not yet: the machine has no line `next register 3`", ended.output)
        ended = check(LESSONS[3], 2, "cdr 2 1\n")
        self.assertIn("not yet: the machine has 0 lines", ended.output)
        self.assertIn("(required: exactly two words are HEADER-FORWARDs)", ended.output)

    @tour.needs_lispm
    def test_required_replies(self) -> None:
        ended = check(LESSONS[1], 2, "cons 1 work 0 7\n")
        self.assertIn("not yet: `cdr 2 1` replies nil, and cons is required", ended.output)
        self.assertEqual(ended.status, 1)

    @tour.needs_lispm
    def test_some_replies_are_right(self) -> None:
        ended = check(LESSONS[1], 1, "t\nt\nt\nt\nt\n")
        self.assertIn("not yet: 4 of 5 right", ended.output)
        ended = check(LESSONS[1], 1, solution(LESSONS[1], 1) + "t\n")
        self.assertIn("not yet: 6 answers, and 5 are required", ended.output)

    @tour.needs_lispm
    def test_a_command_that_is_refused(self) -> None:
        for answer in ("conz 1 work 0 0\n", "end\n", "set 99 1\n"):
            ended = check(LESSONS[0], 2, answer)
            self.assertEqual((ended.status, ended.output, len(ended.errors.splitlines())), (1, "", 1), answer)
            self.assertIn("error line ", ended.errors)

    @tour.needs_lispm
    def test_comments_and_empty_lines_of_an_answer_are_left_out(self) -> None:
        answer = "; mine\n\n" + solution(LESSONS[0], 3).replace("\n", "  \n\n")
        self.assertEqual(check(LESSONS[0], 3, answer).status, 0)

    @tour.needs_lispm
    def test_without_a_machine_the_rest_is_checked(self) -> None:
        ended = check(LESSONS[2], 2, solution(LESSONS[2], 2), inside="/nowhere")
        self.assertEqual((ended.status, ended.output.splitlines()[-1]), (0, "right, apart from what wasn't checked"))
        self.assertEqual(check(LESSONS[2], 2, "", inside="/nowhere").status, 1)


if __name__ == "__main__":
    unittest.main()
