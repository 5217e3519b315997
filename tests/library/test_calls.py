"""The calls from C: bad input, allocations that fail, two threads; under valgrind if it is there."""
import shutil
import unittest
from typing import List

import support

WRAPS = "-Wl,--wrap=malloc,--wrap=realloc,--wrap=free"


class Calls(unittest.TestCase):
    def holds(self, command: List[str]) -> None:
        """A test program ends well; what it wrote says what doesn't hold."""
        ended = support.run(command)
        self.assertEqual((ended.status, ended.errors), (0, b""), ended.output.decode("latin-1"))

    def test_bad_input(self) -> None:
        """Null pointers, rooms, line feeds, long lines, lines after the end, empty seats, ten thousand seats."""
        self.holds(support.under_valgrind([support.compiled("bad_input")]))

    def test_allocations(self) -> None:
        """Each of the first 200 allocations fails in turn, once and for good."""
        self.holds([support.compiled("allocations", WRAPS)])

    def test_there_are_200_allocations(self) -> None:
        """Both ways take memory at least so often, so the test before isn't about nothing."""
        output = support.run([support.compiled("allocations", WRAPS)]).output.decode()
        counts = [int(line.split()[1]) for line in output.splitlines() if line.endswith(" allocations")]
        self.assertEqual(len(counts), 2)
        self.assertGreaterEqual(min(counts), 200)

    def test_threads(self) -> None:
        """Two seats on two threads."""
        self.holds([support.compiled("threads", "-pthread")])

    def test_threads_share_nothing(self) -> None:
        """No two accesses of them race."""
        if shutil.which("valgrind") is None:
            raise unittest.SkipTest("there is no valgrind")
        self.holds(["valgrind", "-q", "--tool=helgrind", "--error-exitcode=98", support.compiled("threads", "-pthread")])
