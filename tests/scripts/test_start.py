"""Starting a program: built, stale, missing, or on trial."""
import os
import pty
import shutil
import signal
import subprocess
import time

from tree import Tree


class Start(Tree):
    """How bin/lispm runs a program."""

    def test_a_built_program_takes_over(self) -> None:
        """Its words, standard input and status are the program's, and it ignores no signal that a plain child doesn't."""
        self.build_by_hand()
        ended = self.run_words("bin/lispm", "why", "--object", "2", data="the input\n")
        self.assertEqual((ended.status, ended.err), (0, ""))
        ignored = subprocess.run(["grep", "SigIgn", "/proc/self/status"], stdout=subprocess.PIPE, text=True).stdout
        self.assertEqual(ended.out, f"by-hand: why --object 2\n{ignored}the input\n")
        self.assertEqual(self.calls(), [])

    def test_a_file_stands_for_standard_input(self) -> None:
        """MODE FILE is MODE <FILE, and the program is given no file's name."""
        self.build_by_hand()
        self.write("my file", "from the file\n")
        for words, given in ((["replay", "my file"], "replay"), (["why", "my file", "--object", "2"], "why --object=2"),
                             (["print", "--", "my file"], "print"), (["--object=2", "why", "my file"], "why --object=2")):
            ended = self.run_words("bin/lispm", *words, data="not this\n")
            self.assertEqual(ended.out.splitlines()[::2], [f"by-hand: {given}", "from the file"])

    def test_a_mode_is_no_file(self) -> None:
        """A file that is named like a mode isn't meant by that word."""
        self.build_by_hand()
        self.write("replay", "")
        self.assert_refused(self.run_words("bin/lispm", "replay", "replay"), "two modes")

    def test_links_are_followed(self) -> None:
        """A link in a folder of one's own, and a link to that."""
        self.build_by_hand()
        os.symlink(self.path("bin/lispm"), self.path("one"))
        os.symlink("one", self.path("two"))
        for name in ("one", "two"):
            self.assertIn("by-hand: replay", self.run_words(name, "replay", cwd="examples").out)

    def test_without_rt_that_is_said(self) -> None:
        """If the kit is missing, one line reports it, and the status is 69."""
        self.without_rt()
        for words in (["bin/lispm", "replay"], ["bin/lispm", "--trial", "replay"], ["bin/lispm_bands"], ["bin/build", "lispm"]):
            ended = self.run_words(*words)
            self.assertEqual((ended.status, ended.out), (69, ""))
            self.assertRegex(ended.err.splitlines()[-1], r"^\w+: needs the command rt \(rattle-kit-\w+ or rattle-kit-\w+\), see README$")

    def test_a_proof_is_said_before_it_begins(self) -> None:
        """A program that isn't built is proved first; a message reports this, and an estimate of the time."""
        ended = self.run_words("bin/lispm", "replay", data="the input\n")
        self.assertEqual((ended.status, ended.out.splitlines()[::2]), (0, ["lispm: replay", "the input"]))
        lines = ended.err.splitlines()
        self.assertIn("it isn't built yet, so it is proved first; --trial", lines[0])
        self.assertRegex(lines[1], r"^build: proves lispm and its dependencies, 2 crates: about \d+ min on \d+ processors")
        self.assertEqual(self.calls(), ["low: lib", "lispm: run"])

    def test_a_stale_program_is_said(self) -> None:
        """A newer source is named, and the program is built again; LISPM_STALE=run runs the old one."""
        self.make_stale()
        ended = self.run_words("bin/lispm", "replay", LISPM_STALE="run")
        self.assertIn("by-hand: replay", ended.out)
        self.assertEqual(ended.err, "lispm: the program that runs is older than crates/low/src/main.rt\n")
        self.assertEqual(self.calls(), [])
        ended = self.run_words("bin/lispm", "replay")
        self.assertIn("lispm: replay", ended.out)
        self.assertIn("older than crates/low/src/main.rt (LISPM_STALE=run runs it)", ended.err)
        self.assertEqual(self.run_words("bin/lispm", "replay").err, "")

    def test_a_program_that_cannot_be_run(self) -> None:
        """A file that is no program is reported."""
        self.build_by_hand()
        self.write("crates/lispm/out/lispm", "\0")
        ended = self.run_words("bin/lispm", "replay")
        self.assertEqual((ended.status, ended.out), (69, ""))
        self.assertIn("Exec format error", ended.err)

    def test_a_test_crate_makes_nothing_stale(self) -> None:
        """Only the program's dependencies count."""
        self.build_by_hand()
        self.write("crates/other/src/lib.rt", "")
        os.utime(self.path("crates/other/src/lib.rt"), (time.time() + 99,) * 2)
        self.assertEqual(self.run_words("bin/lispm", "replay").err, "")


class Trial(Tree):
    """bin/lispm --trial."""

    COMPILED = ["lispm: try --seconds 2 -- exercise --number=1 --count=1000000"]
    INPUT = "lispm-world 1\nspace 5 32 1 1 0\narea a dynamic 9\ntrace\nend\n"

    def test_trial_may_stand_anywhere(self) -> None:
        """Before, between and after the other arguments. The sources are compiled once."""
        for words in (["--trial", "why", "--object", "2"], ["why", "--trial", "--object", "2"], ["why", "--object", "2", "--trial"]):
            ended = self.run_words("bin/lispm", *words, data=self.INPUT)
            self.assertEqual(ended.out.splitlines()[0], "trial: why --object 2")
            self.assertEqual(ended.out.partition("\nSigIgn")[2].partition("\n")[2], self.INPUT)
            self.assertIn("a trial, nothing of it is proved", ended.err)
        self.assertEqual(self.calls(), self.COMPILED)

    def test_a_trial_of_a_file(self) -> None:
        """MODE FILE works under --trial, too, also if nothing has to be compiled."""
        self.write("input", self.INPUT)
        for _ in range(2):
            ended = self.run_words("bin/lispm", "replay", "input", "--trial", data="not this")
            self.assertEqual(ended.out.splitlines()[0::2], ["trial: replay", *self.INPUT.splitlines()[0::2]])

    def test_other_sources_are_compiled_again(self) -> None:
        """What a program is made of counts, and nothing else."""
        for path, count in (("crates/low/src/main.rt", 2), ("crates/low/src/main.rt", 3), ("crates/lispm_bands/src/main.rt", 3)):
            self.run_words("bin/lispm", "--trial", "replay", data=self.INPUT)
            self.write(path, f"// {count}")
            self.run_words("bin/lispm", "--trial", "replay", data=self.INPUT)
            self.assertEqual(self.calls(), self.COMPILED * count)

    def test_few_programs_are_kept(self) -> None:
        """Only the latest of a name."""
        for count in range(6):
            self.write("crates/low/src/main.rt", f"// {count}")
            self.run_words("bin/lispm", "--trial", "replay", data=self.INPUT)
        self.run_words("bin/lispm_bands", "--trial")
        kept = sorted(os.listdir(self.path(".cache/lispm-trials")))
        self.assertEqual([name.split("-")[0] for name in kept], ["lispm"] * 4 + ["lispm_bands"])

    def test_a_slow_pipe_loses_nothing(self) -> None:
        """Standard input is read to its end before the sources are compiled."""
        process = self.start("bin/lispm", "--trial", "replay")
        assert process.stdin is not None
        process.stdin.write(self.INPUT[:20])
        process.stdin.flush()
        time.sleep(0.5)
        self.assertEqual(self.calls(), [])
        out, _ = process.communicate(self.INPUT[20:], timeout=20)
        self.assertTrue(out.endswith("\n" + self.INPUT), out)

    def test_a_kept_program_answers_at_once(self) -> None:
        """It takes the place of the script, so a pipe needn't end."""
        self.run_words("bin/lispm", "--trial", "replay", data=self.INPUT)
        process = self.start("bin/lispm", "--trial", "replay")
        assert process.stdout is not None
        self.assertEqual(process.stdout.readline(), "trial: replay\n")
        process.communicate(timeout=20)

    def test_an_exercise_reads_nothing(self) -> None:
        """So a trial of one doesn't wait for standard input."""
        process = self.start("bin/lispm", "exercise", "--number=1", "--count=1", "--trial")
        assert process.stdout is not None
        self.assertEqual(process.stdout.readline(), "trial: exercise --number=1 --count=1\n")
        process.communicate(timeout=20)

    def test_a_terminal_is_read(self) -> None:
        """What is typed on a terminal, up to ctrl-D; and the seconds are shown."""
        child, terminal = pty.fork()
        if child == 0:
            os.execve(self.path("bin/lispm"), ["lispm", "--trial", "replay"], self.environment(RT_SLEEPS="1.5"))
        written = b""
        for typed, wanted in ((self.INPUT.encode() + b"\x04", b"ctrl-D"), (b"", b"compiling, 1 s"), (b"", b"trial: replay")):
            while wanted not in written:
                written += os.read(terminal, 1000)
            os.write(terminal, typed)
        self.assertEqual(os.waitpid(child, 0)[1], 0)
        os.close(terminal)

    def test_ctrl_c_ends_what_was_begun(self) -> None:
        """One signal, and time to end: rt isn't killed, and what it has started is ended. Nothing half is kept."""
        for number, status in ((signal.SIGINT, 130), (signal.SIGTERM, 143)):
            process = self.start("bin/lispm", "exercise", "--number=1", "--count=1", "--trial", RT_SLEEPS="30")
            begun = time.time()
            while len(self.calls()) % 2 == 0:
                time.sleep(0.05)
            time.sleep(0.3)
            os.killpg(process.pid, number)
            _, err = process.communicate(timeout=20)
            self.assertLess(time.time() - begun, 20)
            self.assertEqual((process.returncode, "stopped" in err), (status, number == signal.SIGINT))
            self.assertEqual(self.calls()[-1], "lispm: ended")
            self.assertEqual(os.listdir(self.path(".cache/lispm-trials")), [])

    def test_an_input_that_is_refused_is_not_compiled_for(self) -> None:
        """The error line of an input that is refused before its first command is written at once."""
        for mode, data, told in (("replay", "", "error line 1: not a world"), ("replay", "# A page\n", "error line 1: not a world"),
                                 ("replay", "\ufeff" + self.INPUT, "error line 1: not a world"),
                                 ("replay", self.INPUT.replace("\n", "\r\n"), "error line 1: not a world"),
                                 ("replay", self.INPUT.replace("area a", "area A"), "error line 3: bad name"),
                                 ("replay", self.INPUT.replace(" 5 32", " 4 32"), "error line 2: bad number"),
                                 ("print", "sexpr-world 1\n", "error line 1: not a world"),
                                 ("compile", self.INPUT, "error line 1: not a world")):
            ended = self.run_words("bin/lispm", "--trial", mode, data=data)
            self.assertEqual((ended.status, ended.out), (2, told + "\n"))
            self.assertIn("tools/check FILE explains it", ended.err)
        self.assertEqual(self.calls(), [])
        for mode, data in (("replay", self.INPUT.replace("end", "conz\nend")), ("compile", "sexpr-world 1\n")):
            self.assertIn(f"trial: {mode}", self.run_words("bin/lispm", "--trial", mode, data=data).out)

    def test_sources_that_do_not_compile(self) -> None:
        """The messages of rt are printed, and nothing is kept."""
        for last in ("error: refused\nrun=none proved=no", "rt: no crate"):
            ended = self.run_words("bin/lispm", "--trial", "replay", data=self.INPUT, RT_TRIAL=last)
            self.assertEqual((ended.status, ended.out), (70, ""))
            self.assertIn(last, ended.err)
            self.assertEqual(os.listdir(self.path(".cache/lispm-trials")), [])

    def test_a_kit_that_leaves_no_program(self) -> None:
        """Then `rt try` runs the trial."""
        ended = self.run_words("bin/lispm", "--trial", "replay", data=self.INPUT, RT_KEEPS="no")
        self.assertEqual((ended.status, ended.out), (0, "words: replay \n" + self.INPUT))
        self.assertEqual([line.split()[:3] for line in self.calls()[1:]], [["lispm:", "try", "--cases"]])

    def test_another_kit_is_told(self) -> None:
        """Only one that isn't known."""
        for kit, is_told in (("rattle-kit-13b x", False), ("rattle-kit-13f x", False), ("rattle-kit-9 x", True)):
            self.write("crates/low/src/main.rt", kit)
            ended = self.run_words("bin/lispm", "--trial", "replay", data=self.INPUT, RT_KIT=kit)
            self.assertEqual("this is rattle-kit-9, and .ci/run has passed with rattle-kit-13b and" in ended.err, is_told)

    def test_tools_have_trials(self) -> None:
        """Pictures, objects, accounts and the tour run what the sources compile to, once for all of them."""
        self.write("empty", self.INPUT)
        for tool, names in (("picture", ["lispm_inside"]), ("objects", ["lispm_inside"]), ("accounts", ["lispm", "lispm_inside"])):
            shutil.rmtree(self.path(".cache"), ignore_errors=True)
            before = len(self.calls())
            for _ in range(2):
                self.assertNotEqual(self.run_words(f"tools/{tool}", "--trial", self.path("empty")).status, 69)
            self.assertEqual([line.partition(":")[0] for line in self.calls()[before:]], names, tool)
        ended = self.run_words("examples/tour/run", "--trial", "1")
        self.assertIn("trial: replay", ended.out)
        self.without_rt()
        ended = self.run_words("tools/picture", "--trial", self.path("examples/identity"))
        self.assertEqual((ended.status, ended.err.splitlines()[-1]), (69, "picture: --trial needs the kit, see README"))

    def test_a_trial_has_a_limit_of_input(self) -> None:
        """An input longer than the first trial reads is refused, and not cut."""
        ended = self.run_words("bin/lispm", "--trial", "replay", data="x" * (65 << 20))
        self.assertEqual((ended.status, self.calls()), (70, []))
        self.assertIn("at most 64 MiB", ended.err)

    def test_an_old_python(self) -> None:
        """One line says what is needed."""
        self.write("old/sitecustomize.py", "import sys\nsys.version_info = (3, 6, 9)\n")
        for path in ("bin/lispm", "bin/lispm_bands", "bin/lispm_inside", "tools/check", "examples/show", "bin/build"):
            ended = self.run_words(path, PYTHONPATH=self.path("old"))
            self.assertEqual((ended.status, len(ended.err.splitlines())), (69, 1), ended.err)
            self.assertIn("needs Python 3.9 or later, and this is 3.6", ended.err)
