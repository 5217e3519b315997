"""The pages of the tour and their pictures are what the programs write now."""
import os
import re
import shutil
import tempfile
import unittest
from functools import lru_cache

import tour
from lib import tool
from lib.pictures import moments, node
from lib.tour import charts, page
from tour import LESSONS, TOP, TOUR, run

needs_node = unittest.skipUnless(node.find(), "node 18 or later isn't there")

PICTURES = os.path.join(TOUR, "pictures")
DOCS = os.path.join(TOP, "docs")


@lru_cache(maxsize=None)
def rates() -> charts.Chart:
    """Units not yet scanned in lesson 9, at four rates."""
    return charts.made(LESSONS[8], LESSONS[8].charts()[0], tour.INSIDE)


def read_page(name: str) -> str:
    with open(os.path.join(DOCS, name)) as file:
        return file.read()


class Charts(unittest.TestCase):

    @tour.needs_inside
    def test_a_row_is_what_lispm_inside_writes(self) -> None:
        self.assertEqual(rates().values, [0, 1, 2, 4])
        for number in (5, 6, 9, len(rates().commands)):
            machine = moments.at(LESSONS[8].session, number, tour.INSIDE).machine
            self.assertEqual(rates().rows[2][number - 1], machine.left)

    @tour.needs_inside
    def test_a_higher_rate_leaves_less(self) -> None:
        self.assertEqual([row[-1] > 0 for row in rates().rows], [True, True, False, False])
        for slow, fast in zip(rates().rows, rates().rows[1:]):
            self.assertTrue(all(one >= other for one, other in zip(slow, fast)))

    def test_ticks_are_round(self) -> None:
        self.assertEqual([charts.ticks(most) for most in (0, 4, 22, 186)], [[0], [0, 1, 2, 3, 4], [0, 5, 10, 15, 20], [0, 50, 100, 150]])

    def test_a_wrong_chart_is_reported(self) -> None:
        for mark in ("chart right, rate 1", "chart left, colour 1"):
            self.assertRaises(tool.ToolError, charts.read_mark, mark)


class Page(unittest.TestCase):
    @tour.needs_inside
    @needs_node
    def test_nothing_is_stale(self) -> None:
        ended = run("--check", script=PICTURES)
        self.assertEqual((ended.status, ended.output, ended.errors), (0, "", ""))

    @tour.needs_inside
    @needs_node
    def test_a_stale_picture_is_reported(self) -> None:
        with tempfile.TemporaryDirectory() as folder:
            for name in ("docs", "examples", "tools", "web"):
                shutil.copytree(os.path.join(TOP, name), os.path.join(folder, name), symlinks=True)
            for name in ("pictures/tour-02.svg", "TOUR.md"):
                with open(os.path.join(folder, "docs", name), "a") as file:
                    file.write("\n")
            script = os.path.join(folder, "examples", "tour", "pictures")
            self.assertEqual(run("--check", "1", script=script), (0, "", ""))
            self.assertEqual(run("--check", "2", script=script), (1, "docs/pictures/tour-02.svg is stale\n", ""))
            self.assertEqual(run("2", script=script), (0, "docs/pictures/tour-02.svg is made again\n", ""))
            self.assertEqual(run("--check", "2", script=script), (0, "", ""))

    def test_each_lesson_has_its_page_and_is_in_the_contents(self) -> None:
        contents = read_page(page.CONTENTS)
        for lesson in LESSONS:
            self.assertIn(f"({page.page_name(lesson)}) | {lesson.question} |", contents)
            self.assertIn(f"*{lesson.question}*", read_page(page.page_name(lesson)))

    def test_each_link_leads_to_a_file(self) -> None:
        for name in [page.CONTENTS] + [page.page_name(lesson) for lesson in LESSONS]:
            for path in re.findall(r"\]\(([^)]*)\)", read_page(name)):
                self.assertTrue(os.path.exists(os.path.join(DOCS, os.path.dirname(name), path)), f"{name}: {path}")

    def test_previous_and_next_lead_through_all_lessons(self) -> None:
        names = [os.path.basename(page.page_name(lesson)) for lesson in LESSONS]
        for at, name in enumerate(names):
            found = re.findall(r"(Previous|Next): \[[^]]*\]\(([^)]*)\)", read_page(f"{page.FOLDER}/{name}"))
            before = [("Previous", other) for other in names[max(0, at - 1):at]]
            self.assertEqual(found, 2 * (before + [("Next", other) for other in names[at + 1:at + 2]]))


if __name__ == "__main__":
    unittest.main()
