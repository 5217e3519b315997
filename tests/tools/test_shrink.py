"""The tool `shrink`: the least input that is wrong in the same way."""
import os
import signal
import subprocess
import sys
import time
import unittest
from typing import Optional

from support import HERE, TOOLS, Ended, run_tool, with_files
from lib import program
from lib.drive.driving import Fault, check, fault_of
from lib.inputs import drawing, shrinking, verdict
from lib.judge import judging

TINY = (sys.executable, os.path.join(HERE, "tiny"))
NUMBERS = range(1, 21)


def shrunk(number: int, *fault: str) -> Ended:
    """The result of the tool on a random input; a wrong one is shrunk to at most 12 commands."""
    data = drawing.drawn(number, drawing.What(commands=150, grade="identity"))
    with with_files(data) as (path,):
        return run_tool("shrink", "--seconds", "60", path, "--", *TINY, *fault)


class Shrunk(unittest.TestCase):
    def check(self, fault: str, most: int, told: str) -> None:
        """An input that finds a bug is shrunk to a complete input of few commands, on which the driver is wrong in the same way."""
        ended = shrunk(1, fault)
        self.assertEqual(ended.status, 1, ended.errors)
        found = verdict.judge(ended.output.encode())
        self.assertEqual(found.status, 0)
        self.assertLessEqual(len(found.commands), most)
        self.assertIn(told, ended.errors)
        self.assertEqual(ended.errors.count("\n"), 1)

    def test_a_store_is_lost(self) -> None:
        self.check("rplacd", 4, "[dump: dump]")

    def test_it_dies(self) -> None:
        self.check("die", 9, "reclaim: died SIGSEGV [died SIGSEGV: reclaim]")

    def test_it_writes_half_a_line(self) -> None:
        self.check("half", 1, "eq 0 0: cut line [cut line: eq]")

    def test_it_ends_early(self) -> None:
        self.check("leave", 1, "status 3 [status 3: put]")

    def test_quotas_are_lowered(self) -> None:
        """A driver that refuses nothing: without lower quotas these would be filled command by command."""
        for number in (1, 3):
            data = drawing.drawn(number, drawing.What(commands=400, grade="space"))
            with with_files(data) as (path,):
                ended = run_tool("shrink", "--seconds", "60", path, "--", *TINY)
            self.assertEqual(ended.status, 1, ended.errors)
            self.assertLessEqual(len(verdict.judge(ended.output.encode()).commands), 2, ended.output)

    def test_it_is_stopped(self) -> None:
        """What was found until then is written: an input on which the driver is wrong in the same way."""
        data = drawing.drawn(1, drawing.What(commands=150, grade="identity"))
        with with_files(data) as (path,):
            words = [os.path.join(TOOLS, "shrink"), "--seconds", "60", path, "--", *TINY, "rplacd"]
            for number, status in ((signal.SIGTERM, 143), (signal.SIGINT, 130)):
                told = "stopped, and this may not be the least: line "
                for seconds in (2, 8, 32):
                    process = subprocess.Popen(words, stdout=subprocess.PIPE, stderr=subprocess.PIPE, start_new_session=True)
                    time.sleep(seconds)
                    os.killpg(process.pid, number)
                    output, errors = process.communicate(timeout=60)
                    if told in errors.decode():
                        break  # else the machine is so busy that nothing was found yet
                self.check_part(data, process.returncode, output, errors.decode(), status, told)

    def test_its_time_is_up(self) -> None:
        data = drawing.drawn(1, drawing.What(commands=150, grade="identity"))
        with with_files(data) as (path,):
            told = "the time is up, and this may not be the least: line "
            for total in ("1", "4", "16"):
                ended = run_tool("shrink", "--seconds", "60", "--total", total, path, "--", *TINY, "rplacd")
                if told in ended.errors:
                    break  # else the machine is so busy that nothing was found yet
        self.check_part(data, ended.status, ended.output.encode(), ended.errors, 1, told)

    def check_part(self, data: bytes, status: int, output: bytes, errors: str, wanted: int, told: str) -> None:
        self.assertEqual((status, errors.count("\n"), told in errors), (wanted, 1, True), errors)
        self.assertLess(output.count(b"\n"), data.count(b"\n"))
        fault = check([*TINY, "rplacd"], output, 60)
        self.assertEqual(fault and fault.way, "dump: dump")

    def test_a_driver_that_is_right(self) -> None:
        ended = shrunk(1)
        self.assertEqual((ended.status, ended.output, ended.errors), (0, "", "shrink: nothing to shrink: the driver is right\n"))

    def test_the_test_for_other_shrinkers(self) -> None:
        with with_files(b"lispm-world 1\nspace 5 32 2 1 0\narea a dynamic 9\ntrace\neq 0 1\nend\n") as (path,):
            for way, status in (("cut line: eq", 0), ("cut line: car", 1), ("eq: eq", 1)):
                self.assertEqual(run_tool("shrink", "--still", way, path, "--", *TINY, "half").status, status)

    def test_mistakes(self) -> None:
        with with_files(b"") as (path,):
            for words, cause in (([path], "a driver must follow --"),
                                 ([path, "--", "./nothing"], "./nothing: no such program"),
                                 ([path + "x", "--", *TINY], f"{path}x: No such file or directory")):
                ended = run_tool("shrink", *words)
                self.assertEqual((ended.status, ended.output, ended.errors), (2, "", f"shrink: {cause}\n"))


class Parts(unittest.TestCase):
    """Shrinking without a driver: the condition is on the text of the input."""

    def least(self, data: bytes, *wanted: bytes) -> bytes:
        """The least whole input that has these pieces."""
        return shrinking.shrunk(data, lambda data: verdict.judge(data).status == 0 and all(piece in data for piece in wanted))

    def test_commands_world_and_words(self) -> None:
        for number in NUMBERS:
            data = drawing.drawn(number, drawing.What(commands=60))
            self.assertEqual(self.least(data, b"\nreclaim\n" if b"\nreclaim\n" in data else b"\ndump\n").count(b"\n"), 6)

    def test_objects_go_and_references_follow(self) -> None:
        data = b"""lispm-world 2
space 18 64 8 2 4
area one static 50
area two ephemeral 600
capacity 6 0
cons one #1 #4
run two 1 #0 #5
block two 9 #4 #1
root 3 #4
root 7 #0
trace
set 3 7
end
"""
        self.assertEqual(self.least(data, b"block ", b"root "), b"""lispm-world 1
space 5 32 1 1 0
area one dynamic 12
block one 0
root 0 nil
trace
end
""")

    def test_what_is_no_input_stays(self) -> None:
        self.assertEqual(shrinking.shrunk(b"conz\n", lambda data: True), b"conz\n")


class Faults(unittest.TestCase):
    """What is reported about a run of a driver."""
    data = b"lispm-world 1\nspace 5 32 2 1 0\narea a dynamic 9\ntrace\neq 0 1\nsize 0\nend\n"

    def found(self, output: bytes, status: int, timed_out: bool = False) -> Optional[Fault]:
        return fault_of(self.data, program.Ended(status, output, timed_out))

    def fault(self, output: bytes, status: int, timed_out: bool = False) -> Fault:
        """What is wrong, if something is."""
        fault = self.found(output, status, timed_out)
        assert fault is not None
        return fault

    def test_endings(self) -> None:
        for output, status, late, kind, line in (
                (b"t\n", -11, False, "died SIGSEGV", 6), (b"t\n", 139, False, "died SIGSEGV", 6),
                (b"t\nwro", -6, False, "died SIGABRT", 6), (b"t\n", -9, True, "timed out", 6),
                (b"t\nwr", 0, False, "cut line", 6), (b"", 1, False, "status 1", 5), (b"t\n", 0, False, "missing", 6),
                (b"t\nwrong-type\n", -11, False, "died SIGSEGV", 7), (b"nil\n", -11, False, "eq", 5)):
            fault = self.fault(output, status, late)
            self.assertEqual((fault.kind, fault.line), (kind, line), (output, status))

    def test_a_run_that_is_right(self) -> None:
        self.assertIsNone(self.found(b"t\nwrong-type\n", 0))
        self.assertIsNone(judging.judge(self.data, b"t\nwrong-type\n", 0).first)


if __name__ == "__main__":
    unittest.main()
