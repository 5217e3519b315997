"""What a session and a whole input are answered with: what the programs write, byte for byte, with their statuses."""
import os
import random
import unittest
from typing import Iterator, List, NamedTuple, Tuple

import support
from lib.inputs.benchmarks import made_input

SESSIONS = os.path.join(support.TOP, "tests", "sessions")
LINES = 1_000_000


class Case(NamedTuple):
    """An input: its name, the arguments of `lispm`, what is read, and the expected result."""
    name: str
    words: List[str]
    data: bytes
    output: bytes
    status: int


def read(*path: str) -> bytes:
    with open(os.path.join(*path), "rb") as file:
        return file.read()


def in_folders(folder: str) -> Iterator[Case]:
    """The cases of a folder with a folder for each: those of `lispm` alone."""
    for name in sorted(os.listdir(folder)):
        if not os.path.isdir(os.path.join(folder, name)):
            continue
        words, data, output, status = (read(folder, name, part) for part in ("words", "in", "out", "status"))
        if words.split()[:1] != [b"BANDS"]:
            yield Case(name, words.decode().split(), data, output, int(status))


def in_manifest(folder: str) -> Iterator[Case]:
    """The cases of a folder with a file MANIFEST: those of `lispm` alone."""
    for line in read(folder, "MANIFEST").decode().splitlines():
        name, mode, status, *rest = line.split()
        if mode != "bands":
            words = [mode] + (["--object", rest[0]] if rest else [])
            yield Case(name, words, read(folder, f"{name}.in"), read(folder, f"{name}.out"), int(status))


def named(variable: str) -> str:
    """The folder that a variable names."""
    folder = os.environ.get(variable)
    if not folder:
        raise unittest.SkipTest(f"{variable} names no folder")
    return folder


class Answers(unittest.TestCase):
    maxDiff = 2000

    def assert_ended(self, ended: support.Ended, case: Case) -> None:
        self.assertEqual((ended.status, ended.output[-1000:]), (case.status, case.output[-1000:]))
        self.assertEqual(ended.output, case.output)

    def whole(self, case: Case) -> None:
        """lispm_main answers it."""
        self.assert_ended(support.run([support.compiled("whole"), "main", *case.words], case.data), case)

    def fed(self, case: Case, room: int = 65536) -> None:
        """A session answers it."""
        self.assert_ended(support.run([support.compiled("feed"), str(room)], case.data), case)

    def all_of(self, cases: Iterator[Case]) -> None:
        """Each case by lispm_main, and those of mode replay by a session, with little and with much room."""
        for case in cases:
            with self.subTest(case=case.name):
                self.whole(case)
                if case.words == ["replay"]:
                    self.fed(case)
                    self.fed(case, room=1)

    def test_sessions(self) -> None:
        """The repository's own sessions, of all modes."""
        self.all_of(in_folders(SESSIONS))

    def test_rows(self) -> None:
        self.all_of(in_folders(named("LISPM_ROWS")))

    def test_texts(self) -> None:
        self.all_of(in_manifest(named("LISPM_TEXTS")))

    def test_under_valgrind(self) -> None:
        """A session with collections and dumps reads and writes no byte that isn't its own."""
        for name in ("dumps-in-a-collection", "references-from-swapped-pages", "program-in-a-collection"):
            with self.subTest(case=name):
                data, output = read(SESSIONS, name, "in"), read(SESSIONS, name, "out")
                for command in ([support.compiled("feed"), "3"], [support.compiled("whole"), "main", "replay"]):
                    ended = support.run(support.under_valgrind(command), data)
                    self.assertEqual((ended.status, ended.output, ended.errors), (0, output, b""))

    def by_program(self, name: str, words: List[str], data: bytes) -> Tuple[int, bytes]:
        ended = support.run([support.built(name), *words], data)
        return ended.status, ended.output

    def test_a_million_lines(self) -> None:
        """Generated commands of four kinds: each line's answer is the reply of `lispm replay` to that line."""
        for profile in ("blocks", "paging", "levels", "mixed"):
            with self.subTest(profile=profile):
                data = made_input(f"made_{profile}", 1, LINES // 4)
                status, output = self.by_program("lispm", ["replay"], data)
                self.fed(Case(profile, ["replay"], data, output, status), room=80)

    def test_cut_inputs(self) -> None:
        """An input that is cut at any byte, or has a byte changed, is answered alike."""
        draw, data = random.Random(42), read(SESSIONS, "dumps-in-a-collection", "in")
        for _ in range(150):
            at = draw.randrange(len(data))
            cut = data[:at] if draw.random() < 0.5 else data[:at] + bytes([draw.randrange(256)]) + data[at + 1:]
            status, output = self.by_program("lispm", ["replay"], cut)
            with self.subTest(data=cut):
                self.whole(Case("cut", ["replay"], cut, output, status))
                self.fed(Case("cut", ["replay"], cut, output, status))

    def test_inside(self) -> None:
        """lispm_inside writes what its program writes, also if a page call fails."""
        for name in ("phases", "references-from-swapped-pages", "no-end"):
            data = read(SESSIONS, name, "in")
            options: List[List[str]] = [[], ["--fail", "1"], ["--fail=3"], ["--fail"], ["--unknown"]]
            for words in options:
                with self.subTest(name=name, words=words):
                    ended = support.run([support.compiled("whole"), "inside", *words], data)
                    self.assertEqual((ended.status, ended.output), self.by_program("lispm_inside", words, data))

    def test_arguments(self) -> None:
        """Arguments that are refused, and modes that read nothing."""
        given: List[List[str]] = [[], ["frobnicate"], ["replay", "replay"], ["why"], ["exercise", "--number", "1", "--count", "50"],
                                  [""], ["why", "--object", "4294967296"], ["replay", ""], ["--", "replay"]]
        for words in given:
            with self.subTest(words=words):
                ended = support.run([support.compiled("whole"), "main", *words], b"")
                self.assertEqual((ended.status, ended.output), self.by_program("lispm", words, b""))
