"""bin/build: progress, what it keeps, and ctrl-C."""
import os
import signal
import subprocess
import time

from tree import TOP, Tree


class Build(Tree):
    """Builds with a stand-in for the prover."""

    def setUp(self) -> None:
        super().setUp()
        self.write("bin/seconds", "low 600\nlispm 60\n")

    def test_progress_has_a_count_and_the_time_left(self) -> None:
        """A line for each crate as it ends."""
        ended = self.run_words("bin/build")
        self.assertEqual(ended.status, 0, ended.err)
        lines = ended.err.splitlines()
        self.assertRegex(lines[0], "2 crates: about 11 min on")
        self.assertEqual(lines[1:], ["1 of 2, low, 1 min; about 1 min remain", "2 of 2, lispm, 1 min; done"])

    def test_what_is_unchanged_takes_no_time(self) -> None:
        """Only the changed crates and the crates that depend on them are counted."""
        self.run_words("bin/build")
        self.write("crates/lispm_bands/src/main.rt", "")
        self.assertIn("about 1 min", self.run_words("bin/build", "lispm").err.splitlines()[0])
        self.make_stale("low")
        os.utime(self.path("crates/low/src/main.rt"))
        self.assertIn("about 11 min", self.run_words("bin/build", "lispm").err.splitlines()[0])

    def test_the_seconds_are_kept(self) -> None:
        """The latest build's seconds take precedence over those in bin/seconds, and are in no tracked file."""
        self.write("bin/build", self.read("bin/build").replace("\nPROVED, SHARE = 5.0, 0.25\n", "\nPROVED, SHARE = 0.8, 0.001\n"))
        self.assertEqual(self.run_words("bin/build", RT_SLEEPS="1").status, 0)
        self.assertRegex(self.read("bin/out/seconds"), r"^lispm [12]\nlow [12]\n$")
        self.assertEqual(self.read("bin/seconds"), "low 600\nlispm 60\n")

    def test_a_crate_that_is_not_proved(self) -> None:
        """It is named with its log, an old program stays, and bin/lispm says that there is none."""
        for name in ("low", "lispm"):
            self.make_stale()
            ended = self.run_words("bin/build", RT_FAILS=name)
            self.assertEqual(ended.status, 1)
            self.assertIn(f"build: {name} is NOT PROVED, see crates/{name}/out/build.log", ended.err)
            self.assertIn("by-hand", self.run_words("bin/lispm", "replay", LISPM_STALE="run").out)
            self.assertEqual(self.run_words("bin/lispm", "replay", RT_FAILS=name).status, 69)
            self.assertFalse(os.path.exists(self.path("crates/lispm/out/lispm.kept")))

    def interrupted(self, *words: str) -> None:
        """Ctrl-C while the first crate is proved: a line, no traceback, and an old program stays."""
        self.make_stale()
        process = self.start(*words, RT_SLEEPS="30")
        while not self.calls():
            time.sleep(0.05)
        time.sleep(0.2)
        os.killpg(process.pid, signal.SIGINT)
        _, err = process.communicate(timeout=20)
        self.assertEqual((process.returncode, err.splitlines()[-1]), (130, "build: stopped; what is proved is kept"))
        self.assertNotIn("Traceback", err)
        self.assertIn("by-hand", self.run_words("bin/lispm", "replay", LISPM_STALE="run").out)

    def test_a_signal_to_end(self) -> None:
        """TERM, to bin/lispm or bin/build alone, ends the build as ctrl-C does."""
        for words in (["bin/lispm", "replay"], ["bin/build"]):
            self.make_stale()
            count = len(self.calls())
            process = self.start(*words, RT_SLEEPS="30")
            while len(self.calls()) == count:
                time.sleep(0.05)
            time.sleep(0.2)
            process.terminate()
            _, err = process.communicate(timeout=20)
            self.assertEqual((process.returncode, err.splitlines()[-1]), (143, "build: stopped; what is proved is kept"))

    def test_ctrl_c_in_a_build(self) -> None:
        """bin/build is interrupted."""
        self.interrupted("bin/build")

    def test_ctrl_c_in_the_build_of_a_start(self) -> None:
        """bin/lispm is interrupted while it builds."""
        self.interrupted("bin/lispm", "replay")

    def test_a_folder_that_cannot_be_written(self) -> None:
        """One line says which."""
        self.write("bin/out", "no folder")
        self.write("crates/low/out", "no folder")
        ended = self.run_words("bin/build")
        self.assertEqual((ended.status, ended.err.splitlines()[-1].partition("/crates")[2]), (1, "/low/out: File exists"))

    def test_words_of_a_build(self) -> None:
        """Help, and a crate that there isn't."""
        self.assertTrue(self.run_words("bin/build", "--help").out.startswith("build [PROGRAM]"))
        ended = self.run_words("bin/build", "nosuch")
        self.assertEqual((ended.status, ended.err), (2, "build: no crate 'nosuch' in crates.txt\n"))
        self.assertEqual(self.calls(), [])

    def test_the_gate_keeps_seconds(self) -> None:
        """bench/gate --keep notes what the proofs took; without it nothing is noted."""
        for words in (["init", "-q"], ["add", "VERSION"], ["-c", "user.name=a", "-c", "user.email=a", "commit", "-qm", "a"]):
            subprocess.run(["git", *words], cwd=self.top, check=True)
        self.assertEqual(self.run_words("bench/gate", self.path("one")).status, 0)
        self.assertEqual(self.read("bin/seconds"), "low 600\nlispm 60\n")
        self.assertEqual(self.run_words("bench/gate", self.path("two"), "--keep").status, 0)
        self.assertRegex(self.read("bin/seconds"), r"^store_word \d\n$")

    def test_seconds_are_there_for_each_crate(self) -> None:
        """The seconds of this repository name its crates."""
        with open(os.path.join(TOP, "bin", "seconds")) as lines:
            rows = [line.split() for line in lines]
        self.assertTrue(all(len(row) == 2 and row[1].isdigit() for row in rows))
        self.assertGreater(len(rows), 40)
