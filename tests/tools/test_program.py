"""The tools over lispm itself, if it is there."""
import os
import unittest
from typing import List

import planted
from support import FIRST, TOP, run_tool, with_files
from lib import program
from lib.inputs import session, verdict
from lib.judge.judging import judge

FOUND = program.is_there("lispm", None)


@unittest.skipUnless(FOUND, "no program lispm")
class WithTheProgram(unittest.TestCase):
    def setUp(self) -> None:
        self.lispm = program.find("lispm", None)

    def test_the_judge_makes_its_reference(self) -> None:
        options: List[List[str]] = [[], ["--lispm", self.lispm]]
        for option in options:
            with with_files(FIRST.data) as (path,):
                ended = run_tool("judge", path, "-", "0", *option, given=FIRST.replies, lispm=self.lispm)
                self.assertEqual((ended.status, ended.output), (0, "same 10   free 0   wrong 0\n"))

    def test_replies_runs_it(self) -> None:
        path = os.path.join(TOP, "examples", "identity")
        ended = run_tool("replies", path, lispm=self.lispm)
        self.assertEqual(ended.status, 0)
        self.assertIn('{"line":11,"number":4,"command":["eq",1,2],"reply":"nil"}', ended.output)

    def test_drawn_inputs(self) -> None:
        for _, data in zip(range(10), planted.inputs()):
            ended = program.replay(self.lispm, data, 60)
            self.assertIsNone(judge(data, ended.output, ended.status).first)

    def test_the_verdict_is_its_own(self) -> None:
        """Inputs with one line left out: lispm and the checker say the same of each."""
        lines = next(planted.inputs()).split(b"\n")
        for at in [*range(6), *range(6, len(lines), len(lines) // 10)]:
            self.compare(b"\n".join(lines[:at] + lines[at + 1:]))

    def compare(self, data: bytes) -> None:
        ended, found = program.replay(self.lispm, data, 60), verdict.judge(data)
        self.assertEqual(ended.status, found.status)
        if found.status:
            self.assertTrue(ended.output.decode("latin-1").endswith(f"{found.error()}\n"), data)
        if found.world is not None:
            self.assertEqual(session.parse(data).areas, [area.name for area in found.world.areas])
