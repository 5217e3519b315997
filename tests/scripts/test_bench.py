"""What the benchmarks share, with a stand-in for the program."""
import os
import shutil
import unittest

from tree import Tree

# Measures the memory of a short program from a process of 200 MB.
MEASURE = """
import measuring
filled = b"x" * 200_000_000
print(measuring.greatest_memory(["true"]))
"""
MOST = 3_000_000


class TestBench(Tree):
    """The scripts of bench/."""

    def setUp(self) -> None:
        super().setUp()
        self.copy("web/lispm.mjs")
        self.build_by_hand()

    def link(self, name: str) -> None:
        """Lets the tree have a command that is installed. Without it the test is left out."""
        path = shutil.which(name)
        if path is None:
            self.skipTest(f"there is no {name}")
        os.symlink(path, os.path.join(self.commands, name))

    def test_memory_of_the_program_alone(self) -> None:
        """The memory of the process that measures isn't counted."""
        for name in ("time", "true"):
            self.link(name)
        self.write("bench/measure", f"#!/usr/bin/env python3{MEASURE}")
        os.chmod(self.path("bench/measure"), 0o755)
        ended = self.run_words("bench/measure")
        self.assertEqual((ended.status, ended.err), (0, ""))
        self.assertTrue(0 < int(ended.out) < MOST, ended.out)

    def test_without_gnu_time(self) -> None:
        """One line says that no memory is measured; the other figures are printed."""
        ended = self.run_words("bench/replay", "--count", "10")
        self.assertEqual((ended.status, ended.err), (0, "no memory is measured, which needs GNU time: apt-get install time\n"))
        self.assertEqual(ended.out.count("commands a second"), 3)
        self.assertNotIn("memory", ended.out)

    def test_without_node(self) -> None:
        """The benchmark of the module says what it needs."""
        ended = self.run_words("bench/web_module")
        self.assertEqual((ended.status, ended.out, ended.err), (69, "", "web_module: the module needs node 18 or later: apt-get install nodejs\n"))

    def test_a_case_that_there_is_not(self) -> None:
        ended = self.run_words("bench/web_module", "crates/lispm/out/lispm", "nosuch")
        self.assertEqual((ended.status, ended.out), (2, ""))
        self.assertIn("no case is called 'nosuch'; there are: set, first path,", ended.err)


if __name__ == "__main__":
    unittest.main()
