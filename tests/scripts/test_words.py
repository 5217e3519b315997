"""Arguments: which are refused and why, and that help and the version are printed at once."""
import os
import random
import resource
import socket
import subprocess
import unittest.mock
from typing import List, Tuple

from lib.scripts import words
from tree import TOP, Tree

CAUSES = [
    (["frobnicate"], "unknown mode 'frobnicate'"),
    (["REPLAY"], "write replay"),
    (["replya"], "did you mean replay?"),
    (["exercise", "--number", "1", "--count", "1000001"], "--count is 0 to 1000000"),
    (["exercise", "--number", "1", "--count", "20_000"], "in digits alone, and not '20_000'"),
    (["exercise", "--number", "4294967296", "--count", "1"], "--number is 0 to 4294967295"),
    (["exercise", "--number", "1"], "exercise needs --count K"),
    (["exercise", "--count"], "--count needs a value"),
    (["exercise", "-n", "1"], "unknown option '-n'"),
    (["-n"], "unknown option '-n'"),
    (["--hlep"], "did you mean --help?"),
    (["why"], "why needs --object K"),
    (["why", "2"], "without '#': --object 2"),
    (["why", "#2"], "without '#': --object 2"),
    (["why", "--object", "#2"], "--object is the number without '#': --object 2"),
    (["why", "--object", "1", "--object", "2"], "--object occurs twice"),
    (["replay", "--object", "2"], "replay takes no --object"),
    (["replay", "no/such"], "replay reads standard input: use <FILE"),
    (["replay", "examples"], "'examples' is a folder"),
    (["replay", "print"], "replay and print are two modes"),
    (["print", "VERSION", "CHANGELOG.md"], "print reads one file, and there are 2"),
    (["exercise", "--number", "1", "--count", "1", "VERSION"], "exercise reads nothing"),
    (["VERSION"], "a mode is missing before the file 'VERSION'"),
    (["--object", "3"], "a mode is missing"),
    (["", "replay"], "unknown mode ''"),
]
# Of these, lists of words are drawn, for the program and for words.py to judge.
DRAWN = ["replay", "exercise", "print", "compile", "why", "census", "--", "-", "", "-n", "--object", "--number", "--count", "--object=0",
         "--object=4294967295", "--object=4294967296", "--number=7", "--count=3", "--count=1000001", "--count=", "--object==1", "0", "7",
         "01", "+1", "-1", "1_0", "1 ", "\u0663", "--other", "--other=1", "--=1", "--Object=1", "--object 1", "REPLAY", "-object=1", "---"]
# Arguments that aren't UTF-8, as a shell can give them.
NOT_UTF8 = [[b"replay\xff"], [b"replay", b"\xc3"], [b"why", b"--object=\xff"], [b"--fail", b"\x80"], [b"\xed\xa0\x80"]]


def built_program(name: str) -> str:
    """The path of a program that is named, or else built here."""
    return os.environ.get(name.upper()) or os.path.join(TOP, "crates", name, "out", name)


def run_within(quarters: int, command: List[str]) -> Tuple[int, bytes]:
    """The status and the output of a command that may use only this number of quarters of a megabyte."""
    most = quarters << 18
    ended = subprocess.run(command, stdin=subprocess.DEVNULL, stdout=subprocess.PIPE, stderr=subprocess.DEVNULL,
                           preexec_fn=lambda: resource.setrlimit(resource.RLIMIT_AS, (most, most)))
    return ended.returncode, ended.stdout


def drawn_words() -> list:
    """Lists of words: some that are near to what is accepted, and some at random."""
    draw = random.Random(1)
    near = [["why", "--object=0"], ["exercise", "--number=7", "--count=3"], ["replay"], ["census"], ["print", "--"],
            ["why", "--object", "7"], ["exercise", "--count", "0", "--number", "7"], ["compile"]]
    lists: List[List[str]] = [[]]
    for _ in range(500):
        given = list(draw.choice(near)) if draw.random() < 0.6 else []
        for _ in range(draw.randint(0, 3)):
            given.insert(draw.randint(0, len(given)), draw.choice(DRAWN))
        if draw.random() < 0.3:
            draw.shuffle(given)
        lists.append(given)
    return lists


def is_accepted(given: list) -> bool:
    """Whether words.py takes these words for the program as they are."""
    try:
        return words.read_words("lispm", given).file is None
    except words.Refused:
        return False


class Words(Tree):
    """What is printed about arguments before anything else."""

    def test_help_is_told_at_once(self) -> None:
        """Help in each form, also with --trial, on a tree in which nothing is built."""
        for given in (["--help"], ["-h"], ["help"], ["replay", "--help"], ["help", "replay"], ["--trial", "--help"], ["-h", "--trial"], ["--trial", "help"]):
            ended = self.run_words("bin/lispm", *given)
            self.assertEqual((ended.status, ended.out, ended.err), (0, self.read("bin/lispm.usage"), ""), given)
        self.assertEqual(self.run_words("bin/lispm_bands", "--help").out, self.read("bin/lispm_bands.usage"))
        self.assertEqual(self.calls(), [])

    def test_version_is_told_at_once(self) -> None:
        """The version, and whether the program is the proved one."""
        version = self.read("VERSION").strip()
        for given in (["--version"], ["-V"], ["--trial", "--version"]):
            ended = self.run_words("bin/lispm", *given)
            self.assertEqual((ended.status, ended.out), (0, f"lispm {version}, not built yet\nrattle-kit-13f\n"))
        self.build_by_hand()
        self.assertIn("proved and built", self.run_words("bin/lispm", "--version").out)
        self.make_stale()
        self.assertIn("older than crates/low/src/main.rt", self.run_words("bin/lispm", "--version").out)
        self.without_rt()
        self.assertIn("without the command rt", self.run_words("bin/lispm", "--version").out)
        self.assertEqual(self.calls(), [])

    def test_version_has_the_commit(self) -> None:
        """In a clone, `git describe`."""
        for words in (["init", "-q"], ["add", "VERSION"], ["-c", "user.name=a", "-c", "user.email=a", "commit", "-qm", "a"]):
            subprocess.run(["git", *words], cwd=self.top, check=True)
        commit = subprocess.run(["git", "describe", "--always"], cwd=self.top, stdout=subprocess.PIPE, text=True).stdout.strip()
        self.assertIn(f" ({commit}), ", self.run_words("bin/lispm", "--version").out)

    def test_without_words_the_usage_is_shown(self) -> None:
        """An empty command line is refused, and the usage is printed, with --trial too."""
        for ended in (self.run_words("bin/lispm"), self.run_words("bin/lispm", "--trial")):
            self.assert_refused(ended, self.read("bin/lispm.usage").rstrip())
            self.assertIn("a mode is missing", ended.err)

    def test_refused_words_have_a_cause(self) -> None:
        """Each refusal has its cause, on a tree in which nothing is built, and no proof begins."""
        for at, (given, cause) in enumerate(CAUSES):
            self.assert_refused(self.run_words("bin/lispm", *given, *["--trial"] * (at % 4 == 0)), cause)
        self.assert_refused(self.run_words("bin/lispm_bands", "VERSION"), "use lispm_bands <FILE")
        self.assert_refused(self.run_words("bin/lispm_bands", "--"), "it takes no arguments")

    def test_a_program_without_modes(self) -> None:
        """A row for a program with an option alone is all that words.py wants."""
        row = words.Program(modes={"": words.Mode(may_have=("fail",))}, options={"fail": words.Option("N", 9)})
        with unittest.mock.patch.dict(words.PROGRAMS, {"other": row}):
            self.assertEqual(words.read_words("other", []), words.Asked([], True, None))
            self.assertEqual(words.read_words("other", ["--fail", "3"]).words, ["--fail", "3"])
            self.assertEqual(words.read_words("other", ["--fail", "3", __file__]), words.Asked(["--fail=3"], True, __file__))
            for given, cause in ((["--fail", "10"], "--fail is 0 to 9"), (["3"], "as an option, without '#': --fail 3"),
                                 (["no/such"], "no file"), (["--count", "1"], "unknown option"), ([""], "no file ''"),
                                 (["--fail=1", "--fail=2"], "twice")):
                with self.assertRaisesRegex(words.Refused, cause):
                    words.read_words("other", given)

    def test_a_file_that_cannot_be_read(self) -> None:
        """A file that is there and can't be opened is a cause, too."""
        with socket.socket(socket.AF_UNIX) as opened:
            opened.bind(self.path("socket"))
            self.assert_refused(self.run_words("bin/lispm", "replay", "socket"), "socket: No such device or address")

    def test_closed_outputs(self) -> None:
        """If standard output fails, the status is that of a sink that failed."""
        with open("/dev/full", "w") as full:
            for given in ("--help", "--version", "frobnicate"):
                ended = subprocess.run([self.path("bin/lispm"), given], env=self.environment(), stdout=full, stderr=subprocess.PIPE)
                self.assertEqual(ended.returncode, 1)
                self.assertNotIn(b"Traceback", ended.stderr)

    def built(self, name: str) -> str:
        """A built program; without one the test is left out."""
        program = built_program(name)
        if not os.access(program, os.X_OK):
            self.skipTest(f"{name} isn't built")
        return program

    def test_words_that_are_not_utf8(self) -> None:
        """Each program refuses them as it refuses other arguments."""
        for name in ("lispm", "lispm_bands", "lispm_inside"):
            program = self.built(name)
            for given in NOT_UTF8:
                ended = subprocess.run([os.fsencode(program), *given], stdin=subprocess.DEVNULL, stdout=subprocess.PIPE,
                                       stderr=subprocess.PIPE)
                self.assertEqual((ended.returncode, ended.stdout, ended.stderr), (7, b"error: usage\n", b""), (name, given))

    def test_no_memory_for_the_words(self) -> None:
        """With a little less memory than suffices to refuse long arguments, each program says that memory ran out."""
        for name in ("lispm", "lispm_bands", "lispm_inside"):
            command = [self.built(name), *["x" * 120_000] * 12]
            short, enough = 0, 1024
            while enough - short > 1:
                middle = (short + enough) // 2
                short, enough = (short, middle) if run_within(middle, command) == (7, b"error: usage\n") else (middle, enough)
            self.assertLess(enough, 1024, name)
            for quarters in range(enough - 4, enough):
                self.assertEqual(run_within(quarters, command), (5, b"error: no memory\n"), (name, quarters))

    def test_words_are_the_programs(self) -> None:
        """words.py accepts exactly the words that the built program accepts."""
        program = self.built("lispm")
        accepted = 0
        for given in drawn_words():
            ended = subprocess.run([program, *given], cwd=self.top, stdin=subprocess.DEVNULL, stdout=subprocess.PIPE)
            self.assertEqual(is_accepted(given), ended.returncode != 7, given)
            self.assertEqual(ended.returncode == 7, ended.stdout == b"error: usage\n", given)
            accepted += ended.returncode != 7
        self.assertGreater(accepted, 50)
