"""The stack that a call needs is what docs/LIBRARY.md says, and doesn't grow with the input."""
import os
import re
import unittest

import support
from lib.inputs.benchmarks import made_input


def chain(count: int) -> bytes:
    """A world of conses, each the cdr of the one before, and a dump."""
    return made_input("dumped", 1, count)


class Stack(unittest.TestCase):
    def used(self, data: bytes, *words: str) -> int:
        ended = support.run([support.compiled("stack", "-pthread"), *words], data)
        self.assertEqual(ended.status, 0, ended.errors)
        return int(ended.output)

    def most(self) -> int:
        """What the page says, in bytes."""
        with open(os.path.join(support.TOP, "docs", "LIBRARY.md")) as file:
            return int(re.findall(r"at most (\d+) KiB of stack", file.read())[0]) * 1024

    def test_stack(self) -> None:
        """Sessions, all modes, and a world of 100,000 objects one after the other."""
        world = made_input("world", 1, 100_000)
        cases = [(chain(100_000), ("session",)), (chain(100_000), ("main", "replay")), (made_input("made_mixed", 1, 20_000), ("session",)),
                 (made_input("collected", 1, 20_000), ("main", "replay")), (world, ("main", "print")), (world, ("main", "census")),
                 (world, ("main", "why", "--object", "77777")), (made_input("expression", 1, 100_000), ("main", "compile")),
                 (b"", ("main", "exercise", "--number", "1", "--count", "5000")), (b"", ("main", "frobnicate"))]
        used = [self.used(data, *words) for data, words in cases]
        self.assertLessEqual(max(used), self.most(), used)

    def test_it_does_not_grow(self) -> None:
        """A hundred times the objects need no more of it."""
        self.assertLess(self.used(chain(100_000), "session"), self.used(chain(1000), "session") + 1024)
