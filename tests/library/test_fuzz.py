"""The harness of examples/fuzz: it agrees with the collector that has no bug, and finds each of those that have one."""
import os
import pathlib
import shutil
import unittest
from typing import List

import support

FUZZ = os.path.join(support.TOP, "examples", "fuzz")
FAULTS = os.path.join(support.TOP, "examples", "drivers", "c", "faults")
FOUND = os.path.join(FUZZ, "found")


def mutants() -> List[str]:
    """Their names, without those that need the driver's nursery."""
    names = sorted(name[:-6] for name in os.listdir(FAULTS) if name.endswith(".patch"))
    texts = {name: pathlib.Path(FAULTS, f"{name}.patch").read_text() for name in names}
    return [name for name in names if "\nneeds: nursery\n" not in texts[name]]


NAMES = mutants()


class Fuzz(unittest.TestCase):
    @classmethod
    def setUpClass(cls) -> None:
        support.needs_pkg_config()
        for command in ("make", "patch"):
            if shutil.which(command) is None:
                raise unittest.SkipTest(f"there is no {command}")

    def made(self, target: str, name: str = "") -> str:
        """The harness over the collector, or over one with a bug."""
        out = os.path.join(support.folder(), f"fuzz-{target}-{name}")
        collector = os.path.join(support.TOP, "examples", "drivers", "c")
        os.makedirs(out, exist_ok=True)
        if name:
            shutil.copytree(collector, os.path.join(out, "collector"), ignore=shutil.ignore_patterns("faults"))
            collector = os.path.join(out, "collector")
            with open(os.path.join(FAULTS, f"{name}.patch"), "rb") as patch:
                self.assertEqual(support.run(["patch", "-s", "-d", collector, "-p1"], patch.read()).status, 0)
        ended = support.run(["make", "-s", "-C", FUZZ, target, f"OUT={out}", f"COLLECTOR={collector}"], environment=support.installed())
        self.assertEqual((ended.status, ended.errors), (0, b""))
        return os.path.join(out, target)

    def test_no_reply_differs(self) -> None:
        """Random byte strings: every one is a whole input, and each fixed reply is the same."""
        ended = support.run([self.made("alone"), "--random", "5000", "42"])
        self.assertEqual((ended.status, ended.output), (0, b"5000 byte strings, and no reply differs\n"), ended.errors[-2000:])

    def test_no_bytes(self) -> None:
        """The empty byte string is an input too, and is shown as a session."""
        ended = support.run([self.made("alone"), "--show", os.devnull])
        self.assertEqual(ended.status, 0)
        self.assertTrue(ended.output.startswith(b"lispm-world 1\n") and ended.output.endswith(b"\nend\n"), ended.output)

    def test_bugs(self) -> None:
        """Random bytes alone find most of the planted bugs, each by the end of the process."""
        for name in set(NAMES) - {"last-level-stays", "barrier-misses-get"}:
            with self.subTest(name=name):
                ended = support.run([self.made("alone", name), "--random", "20000", "1"])
                self.assertLess(ended.status, 0, "isn't found")

    def test_sessions(self) -> None:
        """Each session that was found and kept is wrong on the driver with its bug, and right on the driver without."""
        from lib.drive import driving
        from lib.inputs import session

        plain = [os.path.join(support.TOP, "examples", "drivers", "c", "run")]
        support.run(plain)
        self.assertEqual(sorted(os.listdir(FOUND)), NAMES)
        for name in NAMES:
            with self.subTest(name=name), open(os.path.join(FOUND, name), "rb") as file:
                data = session.parse(file.read()).text()
                planted = support.run([os.path.join(support.TOP, "examples", "drivers", "c", "with-fault"), "--compile", name])
                self.assertIsNotNone(driving.check([planted.output.decode().strip()], data))
                self.assertIsNone(driving.check(plain, data))

    def test_libfuzzer(self) -> None:
        """From an empty corpus it finds a bug in a few seconds."""
        if shutil.which("clang") is None:
            raise unittest.SkipTest("there is no clang")
        ended = support.run([os.path.join(FUZZ, "table"), "--seconds", "60", "root-left-out"], environment=support.installed())
        self.assertEqual((ended.status, ended.output.count(b"\n")), (0, 3), ended.output + ended.errors)

    def test_afl(self) -> None:
        """So does AFL++."""
        if shutil.which("afl-fuzz") is None or shutil.which("clang") is None:
            raise unittest.SkipTest("there is no AFL++")
        ended = support.run([os.path.join(FUZZ, "table"), "--fuzzer", "afl", "--seconds", "60", "root-left-out"], environment=support.installed())
        self.assertEqual((ended.status, ended.output.count(b"\n")), (0, 3), ended.output + ended.errors)
