"""picture and objects: they show the state that the program writes, and report each mistake in one line."""
import os
import re
import subprocess
import unittest
from typing import Any, List

from support import TOOLS, TOP, with_files

from lib import program
from lib.pictures import node

SESSION = os.path.join(TOP, "examples", "collection")
PICTURES = os.path.join(TOP, "tests", "inside", "collection")
INSIDE = program.place("lispm_inside", None)
LISPM = program.place("lispm", None)
needs_inside = unittest.skipUnless(program.is_there("lispm_inside", None), "lispm_inside isn't built")
needs_lispm = unittest.skipUnless(program.is_there("lispm", None), "lispm isn't built")

needs_node = unittest.skipUnless(node.find(), "node 18 or later isn't there")


def ended(*words: str, given: bytes = b"", inside: str = INSIDE, **more: str) -> "subprocess.CompletedProcess[bytes]":
    environment = {**os.environ, "LISPM_INSIDE": inside, "LISPM": LISPM, **{name.upper(): value for name, value in more.items()}}
    return subprocess.run(list(words), input=given, env=environment, stdout=subprocess.PIPE, stderr=subprocess.PIPE, cwd=TOOLS)


def picture(*words: str, **more: Any) -> str:
    return ended("./picture", *words, **more).stdout.decode()


def kept(number: int) -> str:
    with open(os.path.join(PICTURES, f"after-{number}")) as file:
        return file.read()


class Collection(unittest.TestCase):
    """The four moments of examples/collection: flip, a transport by the barrier, a scan, the reclaim."""

    @needs_inside
    def test_pictures_are_those_kept(self) -> None:
        for number in (5, 6, 8, 10):
            self.assertEqual(picture("--after", str(number), SESSION), kept(number))
        self.assertEqual(picture("--after", "5,6,8,10", SESSION), "\n".join(map(kept, (5, 6, 8, 10))))

    def test_the_flip_makes_a_region_old(self) -> None:
        self.assertRegex(kept(5), r"region 0 .* OLD ")
        self.assertNotIn("GC-FORWARD", kept(5))

    def test_the_barrier_moves_one_object(self) -> None:
        self.assertEqual(kept(6).count("GC-FORWARD -> 4096"), 1)
        self.assertRegex(kept(6), r"region 1 .* live  used 2")
        self.assertIn("4096 normal 1", kept(6))
        self.assertIn("4097 second 1", kept(6))

    def test_the_scan_leaves_fewer_units(self) -> None:
        left = [int(re.findall("([0-9]+) units to scan", kept(number))[0]) for number in (6, 8)]
        self.assertLess(left[1], left[0])
        words = [len(re.findall(r"^ .*[0-9] (?:normal|second) .*to scan", kept(number), re.M)) for number in (6, 8)]
        self.assertLess(words[1], words[0])

    def test_the_reclaim_leaves_no_old_region(self) -> None:
        self.assertNotIn("OLD", kept(10))


class Forms(unittest.TestCase):
    @needs_inside
    def test_lines_fit_a_terminal(self) -> None:
        for name in ("lists", "levels", "growth", "references"):
            text = picture(os.path.join(TOP, "examples", name))
            self.assertTrue(text)
            self.assertLessEqual(max(map(len, text.split("\n"))), 80, name)

    @needs_inside
    @needs_node
    def test_a_drawing_has_its_text(self) -> None:
        drawing = picture("-T", "svg", "--after", "6", SESSION)
        self.assertTrue(drawing.startswith("<svg "))
        self.assertIn("<desc>after command 6: car 3 1 -&gt; 1", drawing)
        self.assertEqual(drawing.count("marker-end"), 2)

    @needs_inside
    @needs_node
    def test_moments_side_by_side(self) -> None:
        options: List[List[str]] = [[], ["--beside"]]
        below, beside = (picture("-T", "svg", *more, "--after", "5,6", SESSION) for more in options)
        self.assertEqual([re.findall(r'<g class="moment" transform="translate\(([0-9.]+) ([0-9.]+)\)', one)[1].count("0") for one in (below, beside)], [1, 1])
        wide = [float(re.findall(r'<svg [^>]*width="([0-9.]+)"', one)[0]) for one in (below, beside)]
        self.assertGreater(wide[1], 1.5 * wide[0])

    @needs_inside
    def test_a_drawing_without_node(self) -> None:
        found = ended("./picture", "-T", "svg", SESSION, node="/nowhere/node")
        self.assertEqual((found.returncode, found.stderr), (69, b"picture: a drawing needs node 18 or later: apt-get install nodejs\n"))

    @needs_inside
    def test_a_fault_is_shown(self) -> None:
        text = picture("--fail", "1", "--after", "6", os.path.join(TOP, "examples", "references"))
        self.assertIn("page calls: 1 written", text)


class Objects(unittest.TestCase):
    @needs_lispm
    def test_objects_of_a_world(self) -> None:
        found = ended("./objects", os.path.join(TOP, "examples", "shared.world")).stdout.decode()
        self.assertIn("#1  work cell  2  #2", found)
        self.assertNotIn("unreached", found)

    @needs_lispm
    def test_what_nothing_reaches_is_told_apart(self) -> None:
        world = b"lispm-world 1\nspace 16 32 8 1 2\narea work dynamic 9\ncons work 1 nil\ncons work 2 #0\nroot 0 #0\nend-world\n"
        with with_files(world) as paths:
            self.assertIn("#1  work cons  2  #0   unreached", ended("./objects", paths[0]).stdout.decode())

    @needs_inside
    def test_objects_of_a_moment(self) -> None:
        found = ended("./objects", "--after", "6", SESSION).stdout.decode()
        self.assertIn("#0  work cons  1  1   unreached", found)
        self.assertIn("register 1  #4096", found)


class Mistakes(unittest.TestCase):
    def mistake(self, cause: str, status: int, *words: str, **more: Any) -> None:
        found = ended(*words, **more)
        self.assertEqual(found.stderr.decode().splitlines(), [cause])
        self.assertEqual(found.returncode, status)

    @needs_inside
    def test_each_is_one_line(self) -> None:
        self.mistake("picture: /no/file: No such file or directory", 2, "./picture", "/no/file")
        self.mistake("picture: --after 99: the session has 12 commands", 2, "./picture", "--after", "99", SESSION)
        self.mistake("picture: --after wants numbers of commands with commas between them, not '1-2'", 2, "./picture", "--after", "1-2", SESSION)
        self.mistake("picture: error line 1: not a world", 1, "./picture", "-", given=b"; no world\nset 0 5\n".split(b"\n", 1)[1])

    def test_no_program(self) -> None:
        found = ended("./picture", SESSION, inside="/nowhere/inside")
        self.assertEqual(found.returncode, 69)
        self.assertIn(b"build it by `bin/build lispm_inside`", found.stderr)


if __name__ == "__main__":
    unittest.main()
