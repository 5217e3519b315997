"""examples/show and tests/run."""
import os
import shutil
import subprocess
from typing import List, Tuple

from tree import Tree

SESSION = """; A title.
lispm-world 1
space 16 32 8 1 2
area work dynamic 6
trace
;
; A number.
set 0 5
car 1 0
stats ; ?
dump
end
"""
REPLIES = """#!/bin/sh
# A stand-in for a program: writes its arguments once, and answers the session of the test.
echo "$*" >>"$RT_CALLS"
[ "$1" = replay ] || { echo "turned by $1"; exit 0; }
cat >read
grep -q conz read && { echo ok; echo "error line 6: unknown command"; exit 2; }
printf 'ok\\nwrong-type\\narea work 0 6\\nlispm-world 2\\nend-world\\n'
"""


class Show(Tree):
    """examples/show."""

    def setUp(self) -> None:
        super().setUp()
        self.write("examples/mine", SESSION)
        self.write("crates/lispm/out/lispm", REPLIES)
        os.chmod(self.path("crates/lispm/out/lispm"), 0o755)

    def test_help_and_the_list(self) -> None:
        """Help, and a line for each session of the repository."""
        self.assertTrue(self.run_words("examples/show", "--help").out.startswith("show [--trial]"))
        listed = self.run_words("examples/show", "--list")
        self.assertEqual(listed.status, 0)
        told = dict(line.split(None, 1) for line in listed.out.splitlines())
        self.assertEqual(told["mine"], "A title.")
        self.assertIn("printed", told["shared.world"])
        self.assertIn("compiled", told["shared.sexpr"])
        self.assertNotIn("show", told)
        self.assertEqual(self.calls(), [])

    def test_wrong_words_and_files(self) -> None:
        """Status 2 and one line for each."""
        mistakes: List[Tuple[List[str], str]] = [
            ([], "which session?"), (["nosuch"], "nosuch: No such file"), (["--odd"], "--odd"), (["mine", "tour.x"], "tour.x"),
            (["--plain", "mine", "mine"], "take one session"), (["--quiz", "shared.world"], "nothing to ask")]
        for words, cause in mistakes:
            ended = self.run_words("examples/show", *words)
            self.assertEqual((ended.status, ended.out, len(ended.err.splitlines())), (2, "", 1))
            self.assertIn(cause, ended.err)
        self.assertEqual(self.calls(), [])

    def test_plain_is_the_input(self) -> None:
        """Without comments and marks; a world file as it is."""
        lines = [line for line in SESSION.replace(" ; ?", "").splitlines(True) if not line.startswith(";")]
        self.assertEqual(self.run_words("examples/show", "--plain", "mine").out, "".join(lines))
        world = self.run_words("examples/show", "--plain", "examples/shared.world", cwd="")
        self.assertEqual(world.out, self.read("examples/shared.world"))

    def test_a_session_is_shown(self) -> None:
        """Each command beside its reply, and its comments."""
        ended = self.run_words("examples/show", "mine")
        shown = ["    set 0 5                  ok", "    car 1 0                  wrong-type", "    stats                    area work 0 6",
                 "    dump                     lispm-world 2", "                             end-world", "    end"]
        self.assertEqual(ended.out.splitlines()[5:], ["", "A number."] + shown)
        self.assertEqual(ended.status, 0)

    def test_an_error_has_the_line_of_the_file(self) -> None:
        """Comments are counted there, and the status is the program's."""
        self.write("examples/wrong", SESSION.replace("car", "conz"))
        ended = self.run_words("examples/show", "wrong")
        self.assertEqual((ended.status, ended.out.splitlines()[-1]), (2, "error line 6: unknown command   (line 9 of the file)"))

    def test_worlds_and_expressions(self) -> None:
        """A world file is printed, expressions are compiled."""
        for name, mode in (("shared.world", "print"), ("shared.sexpr", "compile")):
            self.assertEqual(self.run_words("examples/show", name).out.splitlines()[-2:], [f"{mode}:", f"    turned by {mode}"])

    def test_a_quiz_asks_and_counts(self) -> None:
        """A marked reply is predicted before it is shown; if none is marked, every reply is."""
        ended = self.run_words("examples/show", "--quiz", "mine", data="area  work 0 6\n")
        self.assertEqual(ended.out.splitlines()[-1], "1 of 1 right")
        self.write("examples/all", SESSION.replace(" ; ?", ""))
        ended = self.run_words("examples/show", "--quiz", "all", data="ok\nnil\n")
        self.assertIn("    car 1 0\n    ?     no: wrong-type\n", ended.out)
        self.assertEqual(ended.out.splitlines()[-1], "1 of 2 right")

    def test_many_sessions_in_one_trial(self) -> None:
        """One compilation for all of them, and none at the next trial."""
        for _ in range(2):
            ended = self.run_words("examples/show", "--trial", "mine", "shared.world")
            self.assertEqual((ended.status, [line.split()[:2] for line in self.calls()]), (0, [["lispm:", "try"]]))
            self.assertEqual([line for line in ended.out.splitlines() if line.startswith("==")], ["== mine", "== shared.world"])
            self.assertIn("    set 0 5                  trial: replay\n", ended.out)
            self.assertIn("print:\n    trial: print\n", ended.out)

    def test_many_sessions_in_one_trial_of_rt(self) -> None:
        """With a kit that leaves no program, all sessions are compiled once; one that exceeds the limits is reported."""
        self.write("examples/much", SESSION.replace("set 0 5", "too-much"))
        ended = self.run_words("examples/show", "--trial", "mine", "shared.world", "much", RT_KEEPS="no")
        self.assertEqual([line.split()[:3] for line in self.calls()][1:], [["lispm:", "try", "--cases"]])
        self.assertEqual([line for line in ended.out.splitlines() if line.startswith("==")], ["== mine", "== shared.world", "== much"])
        self.assertIn("    words: print \n    lispm-world 2\n", ended.out)
        self.assertEqual((ended.status, ended.err.splitlines()[-1]), (70, "show: much: the trial gave no answer within its limits"))

    def test_a_trial_without_rt(self) -> None:
        """One line, and the status that bin/lispm has."""
        self.without_rt()
        ended = self.run_words("examples/show", "--trial", "mine")
        self.assertEqual((ended.status, ended.out, ended.err.count("needs the command rt")), (69, "", 1))

    def test_nothing_is_proved(self) -> None:
        """If lispm isn't built, a message says what to do; an outdated program is reported."""
        os.utime(self.path("crates/lispm/out/lispm"), (1_000_000_005,) * 2)
        os.utime(self.path("crates/low/src/main.rt"), (1_000_000_009,) * 2)
        ended = self.run_words("examples/show", "mine")
        self.assertEqual((ended.status, ended.err), (0, "show: the program that runs is older than crates/low/src/main.rt\n"))
        os.remove(self.path("crates/lispm/out/lispm"))
        ended = self.run_words("examples/show", "mine")
        self.assertEqual((ended.status, ended.out, ended.err.splitlines()[0].partition(":")[0]), (69, "", "show"))
        self.assertIn("--trial runs the sources unproved", ended.err)
        self.assertEqual(self.calls(), ["replay"])

    def test_a_session_from_a_page(self) -> None:
        """Indented, with blank lines, remarks and replies: these are compared."""
        right = self.run_words("examples/show", "mine").out
        remarks = right.replace("wrong-type", "wrong-type   a remark").replace("    trace", "    trace\n\n    ")
        for text in (right, remarks, "".join(line[4:] if line.startswith("    ") else f"; {line}" for line in right.splitlines(True))):
            self.write("examples/pasted", text)
            ended = self.run_words("examples/show", "pasted")
            self.assertEqual((ended.status, ended.out.splitlines()[-1]), (0, "4 of 4 replies are equal to those in the file"), text)
        self.write("examples/pasted", right.replace("wrong-type", "nil").replace("end-world", "end"))
        ended = self.run_words("examples/show", "pasted")
        self.assertEqual((ended.status, ended.out.splitlines()[-1]), (1, "2 of 4 replies are equal to those in the file"))
        self.assertIn("wrong-type       the file has: nil\n", ended.out)
        self.assertIn("end-world        the file has: end\n", ended.out)
        plain = self.run_words("examples/show", "--plain", "pasted").out
        self.assertEqual(plain, self.run_words("examples/show", "--plain", "mine").out)

    def test_two_spaces_in_a_command(self) -> None:
        """Are no reply: the command is refused as it is."""
        for line in ("set  0 5", "set 0  5", "set 0 5 "):
            self.write("examples/odd", SESSION.replace("set 0 5", line))
            self.assertIn(f"\n{line}\n", self.run_words("examples/show", "--plain", "odd").out)

    def test_comments_in_utf_8(self) -> None:
        """Are written as they are, and so is any other byte."""
        for title in ("Für müde".encode(), b"F\xfcr"):
            with open(self.path("examples/mine"), "wb") as file:
                file.write(SESSION.replace("A title.", "?").encode().replace(b"?", title, 1))
            shown = subprocess.run([self.path("examples/show"), "mine"], env=self.environment(), capture_output=True)
            self.assertEqual((shown.returncode, shown.stdout.split(b"\n")[0]), (0, title))

    def test_a_full_disk(self) -> None:
        """One line, and status 1."""
        with open("/dev/full", "w") as full:
            for words in (["--list"], ["mine"], ["--plain", "mine"]):
                ended = subprocess.run([self.path("examples/show"), *words], env=self.environment(), stdout=full, stderr=subprocess.PIPE)
                self.assertEqual((ended.returncode, ended.stderr), (1, b"show: standard output: No space left on device\n"))


class Run(Tree):
    """tests/run."""

    def setUp(self) -> None:
        super().setUp()
        for folder in ("sessions", "bands"):
            for name, data in (("right", "this\n"), ("much", "too-much\n"), ("wrong", "that\n")):
                for part, text in (("words", "print x"), ("in", data), ("out", "words: print x \nthis\n"), ("status", "0")):
                    self.write(f"tests/{folder}/{name}/{part}", text)

    def test_it_proves_nothing(self) -> None:
        """A program that isn't built is reported, even if it could be built."""
        ended = self.run_words("tests/run")
        self.assertEqual((ended.status, ended.out, self.calls()), (69, "", []))
        self.assertIn("build lispm by `bin/build lispm`, or use --trial", ended.err)

    def test_it_runs_what_is_built(self) -> None:
        """The built programs themselves, with their status; a difference is reported."""
        for name in ("lispm", "lispm_bands"):
            self.write(f"crates/{name}/out/{name}", '#!/bin/sh\necho "words: $* "\ncat\n')
            os.chmod(self.path(f"crates/{name}/out/{name}"), 0o755)
        ended = self.run_words("tests/run")
        self.assertEqual((ended.status, ended.out.splitlines()[-1]), (1, "2 passed, 4 failed"))
        self.assertIn("wrong: status 0, wanted 0\n  wrote : b'words: print x \\nthat\\n'", ended.out)
        for folder in ("sessions", "bands"):
            for name in ("much", "wrong"):
                shutil.rmtree(self.path(f"tests/{folder}/{name}"))
        self.assertEqual(self.run_words("tests/run").out, "2 passed, 0 failed\n")
        self.assertEqual(self.calls(), [])

    def test_a_trial_leaves_out_what_passes_its_limits(self) -> None:
        """One compilation a program; what has no answer is named and counted."""
        ended = self.run_words("tests/run", "--trial", RT_KEEPS="no")
        self.assertEqual([line.split()[:3] for line in self.calls()][1::2], [["lispm:", "try", "--cases"], ["lispm_bands:", "try", "--cases"]])
        self.assertEqual((ended.status, ended.out.splitlines()[-1]), (1, "2 passed, 2 failed, 2 left out"))
        self.assertEqual(ended.out.count("much: left out, it passes the limits of a trial\n"), 2)


