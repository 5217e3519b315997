"""The judge: it accepts what the definitions allow, and reports each wrong reply at the right command."""
import itertools
import json
import os
import random
import unittest
from typing import Callable, Iterable, Iterator, List, Tuple
from unittest import mock

import exact
import free_run
import mutants
import planted
import wrong_phases
from lib.inputs import drawing, session, verdict
from lib.judge import explaining
from lib.judge.answers import split
from lib.judge.judging import First, Judged, judge
from support import FIRST, SESSIONS, read, run_tool, with_files

FORTY = 40
LATE = 1 << 30


class RightReplies(unittest.TestCase):
    def test_drawn_runs_are_right(self) -> None:
        for seed, data in enumerate(itertools.islice(planted.inputs(), FORTY)):
            judged = judge(data, free_run.output(data, seed), 0)
            self.assertIsNone(judged.first, (seed, judged.first))
            self.assertEqual(judged.right, len(verdict.judge(data).commands))

    def test_replies_that_differ_from_the_reference_are_free(self) -> None:
        free = 0
        for seed, data in enumerate(itertools.islice(planted.inputs(), FORTY)):
            one, other = free_run.output(data, seed), free_run.output(data, seed + 1000)
            self.assertEqual(judge(data, one, 0, one).free, 0)
            judged = judge(data, one, 0, other)
            same, found = judged.same or 0, judged.free or 0
            self.assertEqual(same + found, judged.right)
            free += found
        self.assertGreater(free, FORTY)

    def test_sessions_of_the_repository(self) -> None:
        for name in SESSIONS:
            data, output, status = (read(name, part) for part in ("in", "out", "status"))
            judged = judge(data, output, int(status), output)
            self.assertIsNone(judged.first, (name, judged.first))
            self.assertEqual(judged.free, 0, name)

    def test_faults_that_are_allowed(self) -> None:
        replies = FIRST.replies.replace(b"cons\n", b"fault\n", 1)
        self.assertEqual(judge(FIRST.data, replies, 0, faults=1).faults, 1)
        self.assertEqual(first_of(FIRST.data, replies, 0).kind, "fault")
        self.assertEqual(first_of(FIRST.data, replies.replace(b"cons\n", b"fault\n"), 0, faults=1).kind, "fault")


def first_of(data: bytes, output: bytes, status: int, faults: int = 0) -> First:
    """The first wrong reply, which there must be."""
    first = judge(data, output, status, faults=faults).first
    assert first is not None, data
    return first


class WrongReplies(unittest.TestCase):
    def tell_all(self, kind: str, faults: Iterable[planted.Fault], count: int = FORTY) -> None:
        """Each of forty wrong replies is reported at its command, with its kind."""
        for fault in itertools.islice(faults, count):
            first = first_of(fault.data, fault.output, fault.status)
            self.assertEqual((first.number, first.line, first.kind), (fault.number, fault.line, kind), first)

    def test_each_kind_of_reply(self) -> None:
        for kind in planted.WAYS:
            with self.subTest(kind):
                self.tell_all(kind, planted.faults(kind))

    def test_each_word_of_exhausted(self) -> None:
        for name, place in planted.EXHAUSTED.items():
            with self.subTest(name):
                self.tell_all("exhausted", planted.faults("exhausted", [planted.exhausted_word(place)]))

    def test_missing_lines(self) -> None:
        self.tell_all("missing", cut_outputs(lambda lines, at: planted.text(lines[:at])))

    def test_cut_lines(self) -> None:
        self.tell_all("cut", cut_outputs(lambda lines, at: planted.text(lines[:at]) + lines[at][0][:-1].encode()))

    def test_a_line_that_no_command_gives(self) -> None:
        self.tell_all("error", cut_outputs(lambda lines, at: planted.text([*lines[:at], ["error: no memory"]])))

    def test_extra_lines(self) -> None:
        for extra in (b"ok\n", b"nil", b"\n", b"end-world\n"):
            self.tell_all("extra", behind_the_last(lambda output: (output + extra, 0)), FORTY // 4)

    def test_status(self) -> None:
        for status in (1, 2, 4, -11, 139):
            self.tell_all("status", behind_the_last(lambda output: (output, status)), FORTY // 5)

    def test_error_lines(self) -> None:
        for seed, (data, error) in enumerate(itertools.islice(refused_inputs(), FORTY // 5)):
            found = verdict.judge(data)
            good = free_run.output(data, seed) if found.world else b""
            line = (found.error() or "").encode() + b"\n"
            self.assertIsNone(judge(data, good + line, found.status).first)
            for wrong in (b"", line.replace(b"line ", b"line 1"), line[:-2] + b"\n", line + line, line[:-1]):
                first = first_of(data, good + wrong, found.status)
                self.assertEqual((first.line, first.number), (found.line, len(found.commands) + 1), (first, wrong))
            self.assertEqual(first_of(data, good + line, 0).kind, "status")

    def test_what_was_expected(self) -> None:
        first = judge(FIRST.data, FIRST.replies.replace(b"exhausted work 6 2 6", b"ok"), 0).first
        self.assertEqual(first, (13, 9, "cons 6 work 0 0", "exhausted work 6 2 6", "ok", "exhausted", None))
        first = first_of(FIRST.data, FIRST.replies.replace(b"t\n", b"nil\n", 1), 0)
        self.assertEqual((first.command, first.expected, first.got), ("eq 3 4", "t", "nil"))


def cut_outputs(cut: Callable[[List[List[str]], int], bytes]) -> Iterator[planted.Fault]:
    """Right replies that are cut at the first line of some command."""
    for seed, data in enumerate(planted.inputs()):
        answers = split(session.parse(data), free_run.output(data, seed)).answers
        at = random.Random(seed).randrange(len(answers))
        lines = [answer.lines for answer in answers]
        if lines[at][0][:-1]:
            yield planted.Fault(data, cut(lines, at), 0, at + 1, answers[at].command.line)


def behind_the_last(changed: Callable[[bytes], Tuple[bytes, int]]) -> Iterator[planted.Fault]:
    """Right replies with something wrong after the last one."""
    for seed, data in enumerate(planted.inputs()):
        output, status = changed(free_run.output(data, seed))
        trace = session.parse(data)
        yield planted.Fault(data, output, status, len(trace.commands) + 1, trace.ending[0].number)


def refused_inputs() -> Iterator[Tuple[bytes, bytes]]:
    """Inputs with a wrong line, and its text."""
    for seed, data in enumerate(planted.inputs()):
        lines = data.split(b"\n")
        draw = random.Random(seed)
        wrong = draw.choice((b"conz 1 a0 0 0", b"car 1", b"set 999 0", b"scavenge -1", b"flip 0", b"set  0 1", b"dump\r"))
        lines.insert(draw.randrange(1, len(lines) - 2), wrong)
        yield b"\n".join(lines), wrong


# Two conses and a list of one are bound and die: which of them stay is free.
GARBAGE = b"""lispm-world 2
space 5 32 4 1 0
area work dynamic 100
capacity 0
trace
cons 1 work 0 0
cons 2 work 0 0
list 3 work 0
flip full
set 1 nil
set 2 nil
set 3 nil
scavenge 100
reclaim
stats
end
"""


class FewValues(unittest.TestCase):
    def replies(self, charged: int) -> bytes:
        return b"ok\nok\nok\nflipped 0\nok\nok\nok\ndone\nreclaimed\narea work %d 100\n" % charged

    def test_they_are_named(self) -> None:
        for charged in (0, 2, 3, 4, 5, 7):
            self.assertIsNone(judge(GARBAGE, self.replies(charged), 0).first, charged)
        for charged in (1, 6, 8):
            first = first_of(GARBAGE, self.replies(charged), 0)
            self.assertEqual(first.expected, "area work 0|2|3|4|5|7 100")
            self.assertEqual(first.got, f"area work {charged} 100")


class ByBruteForce(unittest.TestCase):
    """The judge against all runs of short inputs."""

    def check_all(self, numbers: range, is_exact: bool) -> None:
        for number in numbers:
            for data, replies in mutants.of_short_input(number):
                judged = judge(data, planted.text(replies), 0)
                wanted = exact.first_wrong(data, replies)
                found = judged.first and judged.first.number
                if is_exact and not judged.relaxed:
                    self.assertEqual(found, wanted, (number, judged))
                self.assertGreaterEqual(found or LATE, wanted or LATE, (number, judged))

    def test_each_reply_is_judged_exactly(self) -> None:
        self.check_all(range(1, 40), True)

    def test_bounds_refuse_nothing_that_is_right(self) -> None:
        with mock.patch.object(explaining, "MOST_HYPOTHESES", 0):
            self.check_all(range(40, 70), False)


class InBounds(unittest.TestCase):
    def test_drawn_runs_are_right(self) -> None:
        """With bounds wherever there is more than one hypothesis. Some of these runs go into bounds in a full flip."""
        with mock.patch.object(explaining, "MOST_HYPOTHESES", 0):
            for number in (10, 16, 64, 121, *range(200, 220)):
                data = drawing.drawn(number, drawing.What())
                self.assertIsNone(judge(data, free_run.output(data, number), 0).first, number)

    def test_wrong_phases_are_told(self) -> None:
        for mutant in itertools.islice(wrong_phases.mutants(400, 24), FORTY):
            self.assertTrue(wrong_phases.is_told(mutant), mutant)

    def test_they_become_exact_again(self) -> None:
        data = drawing.drawn(24, drawing.What())
        places = wrong_phases.places_in_bounds(verdict.judge(data), free_run.output(data, 24))
        self.assertIn(False, places[places.index(True):])


class TheTool(unittest.TestCase):
    def test_right_and_wrong(self) -> None:
        with with_files(FIRST.data, FIRST.replies, FIRST.replies.replace(b"t\n", b"nil\n", 1)) as (data, right, wrong):
            ended = run_tool("judge", data, right, "0", "--reference", right)
            self.assertEqual((ended.status, ended.output), (0, "same 10   free 0   wrong 0\n"))
            ended = run_tool("judge", data, wrong, "0", "--reference", right, "--grade", "space")
            self.assertEqual(ended.status, 1)
            self.assertEqual(ended.output, "same 5   free 0   wrong 1   not judged 4   [space]\n"
                             "line 10, command 6: eq 3 4   expected t, got nil   (eq)\n")

    def test_json(self) -> None:
        with with_files(FIRST.data, FIRST.replies.replace(b"wrong-type", b"cons")) as (data, wrong):
            ended = run_tool("judge", data, wrong, "0", "--reference", wrong, "--json", "--grade", "space")
            found = json.loads(ended.output)
            self.assertEqual((ended.status, found["same"], found["grade"]), (1, 9, "space"))
            self.assertEqual(found["first"]["command"], ["car", 7, 0])

    def test_a_grade_is_checked(self) -> None:
        levels, capacity = GARBAGE.replace(b"full", b"1"), GARBAGE.replace(b"capacity 0", b"capacity 9")
        for grade, data, cause in (("identity", FIRST.data, "line 3 has a quota that can refuse an allocation"),
                                   ("identity", GARBAGE, "line 15 has the command stats"),
                                   ("space", levels, "line 9 flips some levels alone"),
                                   ("space", capacity, "line 4 has a capacity")):
            with with_files(data, FIRST.replies) as (path, replies):
                ended = run_tool("judge", path, replies, "0", "--grade", grade)
                self.assertEqual((ended.status, ended.output), (2, ""))
                self.assertEqual(ended.errors, f"judge: {cause}: the input isn't of grade {grade}\n")

    def test_what_is_relaxed_is_said(self) -> None:
        data = drawing.drawn(24, drawing.What())
        with with_files(data, free_run.output(data, 24)) as (path, replies):
            ended = run_tool("judge", path, replies, "0", "--reference", replies)
        self.assertRegex(ended.output, r"^same \d+   free 0   wrong 0   relaxed: .*bounds from command \d+\n$")

    def test_commented_sessions_have_the_lines_of_the_file(self) -> None:
        lines = FIRST.data.split(b"\n")
        data = b"; one\n" + b"\n".join(lines[:5]) + b"\n;\n; two\n" + b"\n".join(lines[5:])
        with with_files(data, FIRST.replies.replace(b"t\n", b"nil\n", 1)) as (path, wrong):
            self.assertIn("line 13, command 6: eq 3 4", run_tool("judge", path, wrong, "0", "--reference", wrong).output)

    def test_without_a_program(self) -> None:
        with with_files(FIRST.data, FIRST.replies) as (data, right):
            ended = run_tool("judge", data, right, "0", "--lispm", "/nowhere/lispm")
            self.assertEqual((ended.status, ended.output), (69, ""))
            self.assertIn("judge: no program", ended.errors)

    def test_standard_input(self) -> None:
        with with_files(FIRST.data) as (data,):
            ended = run_tool("judge", data, "-", "0", "--reference", os.devnull, given=FIRST.replies)
            self.assertEqual((ended.status, ended.output), (0, "same 0   free 10   wrong 0\n"))


class Speed(unittest.TestCase):
    def test_two_thousand_commands(self) -> None:
        import time
        data = drawing.exercise(1, 2000).encode()
        output = free_run.output(data, 1)
        start = time.perf_counter()
        judged: Judged = judge(data, output, 0)
        self.assertEqual(judged.right, 2001)
        self.assertLess(time.perf_counter() - start, 1)
