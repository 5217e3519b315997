"""The tool `many`: random inputs for a driver, by GNU parallel."""
import json
import os
import re
import shutil
import signal
import socket
import subprocess
import sys
import tempfile
import time
import unittest
from typing import Callable

from support import HERE, TOOLS, TOP, Ended, run_tool
from lib.drive import batches
from lib.inputs import drawing

TINY = (sys.executable, os.path.join(HERE, "tiny"))
QUICK = ("--grade", "identity", "--count", "60", "--jobs", "2", "--seconds", "60")
HAS_PARALLEL = shutil.which("parallel") is not None


def counted(output: str) -> str:
    """The counts of the last line, without what the judge relaxed."""
    return re.sub(r" *relaxed: .*$", "", output.splitlines()[-1]) if output else ""


class Batches(unittest.TestCase):
    """Without GNU parallel: one batch, and the tally of many batches."""

    def batch(self, *words: str) -> Ended:
        return run_tool("many", "--grade", "identity", "--count", "60", "--seconds", "60", *words)

    def test_a_batch_and_its_tally(self) -> None:
        right, wrong = self.batch("--batch", "1-4", "--", *TINY), self.batch("--batch", "5-6", "--", *TINY, "half")
        self.assertRegex(right.output, '^{"first": 1, "last": 4, "commit": .*, "faults": \\[\\]}\n$')
        ended = run_tool("many", "--from", "1", "--to", "4", "--tally", "-", given=right.output.encode())
        self.assertEqual((ended.status, counted(ended.output)), (0, "4 right, 0 wrong"))
        ended = run_tool("many", "--from", "5", "--to", "6", "--tally", "-", given=wrong.output.encode())
        lines = ended.output.splitlines()
        self.assertEqual((ended.status, counted(ended.output), len(lines)), (1, "0 right, 2 wrong", 4))
        self.assertRegex(lines[0], r"^5: line \d+, eq \d+ \d+: cut line$")
        self.assertEqual(lines[2], "made again by: tools/draw --grade identity --count 60 --number 5")

    def test_a_batch_that_is_missing(self) -> None:
        given = b'{"first": 1, "last": 4, "faults": []}\n{"first": 7, "last"'
        ended = run_tool("many", "--from", "1", "--to", "6", "--tally", "-", given=given)
        self.assertEqual((ended.status, ended.errors), (1, "many: 2 inputs weren't judged, from 5 on; --resume goes on\n"))

    def test_it_hangs(self) -> None:
        ended = self.batch("--seconds", "0.3", "--batch", "1-1", "--", "sleep", "100")
        self.assertRegex(ended.output, '"kind": "timed out", "line": [0-9]+, "command": "[a-z]')

    def test_a_batch_that_lasts_too_long(self) -> None:
        """It ends after an input, and its line has the number of that input."""
        line = json.loads(self.batch("--longest", "0", "--batch", "3-9", "--", *TINY).output)
        self.assertEqual((line["first"], line["last"]), (3, 3))

    def test_each_number_is_in_one_batch(self) -> None:
        for ranges in ([(1, 1)], [(1, 20)], [(3, 1000)], [(0, 12345)], [(1, 5), (9, 9), (20, 700)]):
            wanted = [batches.Batch(*one) for one in ranges]
            for seconds in (None, 0.01, 1.0, 60.0):
                numbers = [number for batch in batches.split(wanted, seconds, 4) for number in range(batch.first, batch.last + 1)]
                self.assertEqual(numbers, [number for one in wanted for number in range(one.first, one.last + 1)])

    def test_batches_have_a_size_by_time(self) -> None:
        sizes = [max(one.size for one in batches.split([batches.Batch(1, 100000)], seconds, 2)) for seconds in (None, 0.02, 1.0, 60.0)]
        self.assertEqual(sizes, [200, 250, 5, 1])

    def test_mistakes(self) -> None:
        for words, cause in (("--to 3 -- cat", "--from A and --to B are wanted; see many --help"),
                             ("--from 4 --to 3 -- cat", f"--from and --to are 0 to {drawing.MOST_NUMBER}, in this order"),
                             ("--from 1 --to 3", "a driver must follow --"),
                             ("--from 1 --to 3 -- ./nothing", "./nothing: no such program"),
                             ("--batch 3 -- cat", "3: a batch is FIRST-LAST")):
            ended = run_tool("many", *words.split())
            self.assertEqual((ended.status, ended.output, ended.errors), (2, "", f"many: {cause}\n"))

    def test_without_parallel(self) -> None:
        """A machine without it: one line says what to install."""
        with tempfile.TemporaryDirectory() as folder:
            for name in ("python3", "env"):
                os.symlink(shutil.which(name, path="/usr/bin:" + os.environ["PATH"]) or "/nowhere", os.path.join(folder, name))
            command = [os.path.join(TOOLS, "many"), "--from", "1", "--to", "2", "--", *TINY]
            ended = subprocess.run(command, env={"PATH": folder}, capture_output=True)
        self.assertEqual((ended.returncode, ended.stderr), (69, b"many: needs GNU parallel: apt-get install parallel\n"))


class WithFolder(unittest.TestCase):
    """A test with a folder of its own."""

    def setUp(self) -> None:
        self.folder = tempfile.mkdtemp()
        self.addCleanup(shutil.rmtree, self.folder)

    def path(self, name: str) -> str:
        return os.path.join(self.folder, name)

    def write(self, name: str, text: str) -> str:
        with open(self.path(name), "w") as file:
            file.write(text)
        os.chmod(self.path(name), 0o755)
        return self.path(name)


@unittest.skipUnless(HAS_PARALLEL, "no GNU parallel")
class Many(WithFolder):
    def setUp(self) -> None:
        super().setUp()
        self.log = self.path("log")

    def found(self) -> list:
        """The lines of batches."""
        with open(self.log + ".found") as file:
            return [json.loads(line) for line in file.readlines()[1:]]

    def test_twenty_inputs(self) -> None:
        ended = run_tool("many", "--from", "1", "--to", "20", *QUICK, "--", *TINY)
        self.assertEqual((ended.status, counted(ended.output), ended.errors), (0, "20 right, 0 wrong", ""))

    def test_wrong_ones_are_made_again(self) -> None:
        """The command that is printed makes an input on which the driver is wrong."""
        ended = run_tool("many", "--from", "1", "--to", "5", *QUICK, "--", *TINY, "leave")
        told, words = ended.output.splitlines()[0], ended.output.splitlines()[-2]
        self.assertRegex(counted(ended.output), r"^\d right, \d wrong$")
        draw = words.partition(": tools/draw ")[2].split(" ")
        again = run_tool("draw", *draw)
        number, line = told.partition(":")[0], int(told.split(" ")[2].rstrip(","))
        self.assertEqual((draw[-1], again.status), (number, 0))
        self.assertTrue(again.output.split("\n")[line - 1].startswith("put "))

    def test_a_run_goes_on(self) -> None:
        """A run whose later half was lost runs that half alone, and what failed is run again."""
        words = ["--from", "1", "--to", "16", *QUICK, "--joblog", self.log, "--", *TINY]
        self.assertEqual(counted(run_tool("many", *words).output), "16 right, 0 wrong")
        with open(self.log + ".found") as file:
            lines = file.readlines()
        kept = lines[:2] + [lines[3][:30]] + lines[4:6]
        self.write("log.found", "".join(kept))
        self.assertEqual(counted(run_tool("many", "--resume", *words).output), "16 right, 0 wrong")
        with open(self.log + ".found") as file:
            self.assertEqual(file.read()[:len("".join(kept))], "".join(kept))

    def test_what_a_run_is_of(self) -> None:
        """Each line has the commit, checksums and inputs; a run is only resumed with the same ones, and nothing is overwritten."""
        driver = self.write("driver", f"#!/bin/sh\nexec {' '.join(TINY)}\n")
        words = ["--from", "1", "--to", "4", *QUICK, "--joblog", self.log, "--", driver]
        self.assertEqual(run_tool("many", *words).status, 0)
        for line in self.found():
            self.assertEqual(line["inputs"], {"drawn": ["--grade", "identity", "--count", "60"], "kind": "wide", "grade": "identity", "size": "small"})
            self.assertRegex(f"{line['commit']} {line['tools']} {line['driver']}", "^[0-9a-f]{12} [0-9a-f]{16} [0-9a-f]{16}$")
        again = run_tool("many", *words)
        self.assertEqual((again.status, again.output), (2, ""))
        self.assertIn(f"{self.log} is there, of an earlier run: --resume goes on with it", again.errors)
        for more, cause in ((["--count", "61"], "of another kind of inputs"), (["--seconds", "9"], "of another --seconds"),
                            (["--to", "5"], "of another last number")):
            other = run_tool("many", "--resume", *words[:-2], *more, "--", driver)
            self.assertEqual((other.status, cause in other.errors), (2, True), other.errors)
        self.write("driver", f"#!/bin/sh\nexec {' '.join(TINY)} half\n")
        other = run_tool("many", "--resume", *words)
        self.assertEqual((other.status, "is of another driver, by its checksum" in other.errors), (2, True), other.errors)

    def test_the_program_of_a_driver(self) -> None:
        """A script that answers LISPM_DRIVER=program is run once a batch, and its program for each input."""
        driver = self.write("driver", f"""#!/bin/sh
echo once >>{self.path("calls")}
[ "$LISPM_DRIVER" = program ] && {{ printf '%s\\n' {' '.join(TINY)}; exit; }}
exit 3
""")
        self.assertEqual(counted(run_tool("many", "--from", "1", "--to", "8", *QUICK, "--joblog", self.log, "--", driver).output), "8 right, 0 wrong")
        with open(self.path("calls")) as calls:
            self.assertLessEqual(len(calls.readlines()), len(self.found()) + 2)

    def test_a_folder_of_inputs(self) -> None:
        """Recorded traces, by their names; a file may have comments."""
        os.mkdir(self.path("traces"))
        for number, name in ((1, "b"), (2, "a"), (3, "c")):
            data = drawing.drawn(number, drawing.What(commands=60, grade="identity")).decode()
            self.write(f"traces/{name}", ("; a comment\n" if name == "c" else "") + data)
        words = ["--inputs", self.path("traces"), "--seconds", "60", "--"]
        ended = run_tool("many", *words, *TINY)
        self.assertEqual((ended.status, counted(ended.output)), (0, "3 right, 0 wrong"), ended.errors)
        wrong = run_tool("many", *words, *TINY, "half")
        self.assertEqual((wrong.status, wrong.output.splitlines()[-2]), (1, f"its input: {self.path('traces/a')}"))
        line = run_tool("many", "--inputs", self.path("traces"), "--batch", "1-3", "--seconds", "60", "--", *TINY, "half").output.encode()
        for more, status, told in ((["--inputs", self.path("traces")], 1, "its input: "), (["--from", "1", "--to", "3"], 2, "name it by --inputs")):
            ended = run_tool("many", *more, "--tally", "-", given=line)
            self.assertEqual((ended.status, told in ended.output + ended.errors), (status, True), ended.errors)
        none = run_tool("many", "--inputs", self.path("none"), "--", *TINY)
        self.assertEqual((none.status, none.errors), (2, f"many: {self.path('none')}: No such file or directory\n"))

    def test_it_is_stopped(self) -> None:
        """TERM and ctrl-C end GNU parallel and its batches; a second run goes on."""
        driver = self.write("driver", f"#!/bin/sh\n[ $LISPM_DRIVER ] && exit\n[ -e {self.path('go')} ] || {{ echo $$ >>{self.path('pids')}; exec sleep 50; }}\nexec {' '.join(TINY)}\n")
        words = ["--from", "1", "--to", "4", *QUICK, "--joblog", self.log, "--", driver]
        for number, status in ((signal.SIGTERM, 143), (signal.SIGINT, 130)):
            resume = ["--resume"] * os.path.exists(self.log)
            process = subprocess.Popen([os.path.join(TOOLS, "many"), *resume, *words], stderr=subprocess.PIPE)
            self.wait_for(lambda: os.path.exists(self.path("pids")))
            process.send_signal(number)
            _, errors = process.communicate(timeout=20)
            self.assertEqual((process.returncode, errors), (status, b"many: stopped; --resume goes on\n"))
            with open(self.path("pids")) as pids:
                self.wait_for(lambda: not any(os.path.exists(f"/proc/{pid.strip()}/cwd") for pid in pids))
            os.remove(self.path("pids"))
        self.write("go", "")
        self.assertEqual(counted(run_tool("many", "--resume", *words).output), "4 right, 0 wrong")

    def wait_for(self, holds: Callable[[], bool]) -> None:
        deadline = time.monotonic() + 20
        while not holds():
            self.assertLess(time.monotonic(), deadline)
            time.sleep(0.05)


class Queues(unittest.TestCase):
    """Without GNU parallel: commands for a batch queue, and an array of Slurm, each with a stand-in."""

    def test_a_queue(self) -> None:
        """The commands are run in another order, one of them twice, and one breaks off."""
        with tempfile.TemporaryDirectory() as folder:
            found = os.path.join(folder, "found of mine")
            words = ["--from", "1", "--to", "9", "--grade", "identity", "--count", "60", "--jobs", "1"]
            listed = run_tool("many", *words, "--commands", found, "--", *TINY).output.splitlines()
            self.assertEqual(len(listed), 3)
            tally = lambda: run_tool("many", "--from", "1", "--to", "9", "--tally", "-", given=self.all_of(found))
            for command in reversed(listed[1:] + listed[1:2]):
                subprocess.run(["sh", "-c", command], cwd="/", check=True)
            self.assertIn("3 inputs weren't judged, from 1 on", tally().errors)
            subprocess.run(["sh", "-c", listed[0]], cwd="/", check=True)
            self.assertEqual(counted(tally().output), "9 right, 0 wrong")

    def all_of(self, folder: str) -> bytes:
        texts = []
        for name in os.listdir(folder):
            with open(os.path.join(folder, name), "rb") as file:
                texts.append(file.read())
        return b"".join(texts)

    def test_an_array_of_slurm(self) -> None:
        """The command of the help, with the numbers that Slurm gives and batches of 2."""
        help = run_tool("many", "--help").output
        (wrapped,) = re.findall(r"--wrap \\\n *'(.*)'", help)
        command = wrapped.replace("DRIVER", " ".join(TINY)).replace("50", "2").replace("--longest", "--grade identity --count 60 --longest")
        lines = [subprocess.run(["sh", "-c", command], env={**os.environ, "SLURM_ARRAY_TASK_ID": str(task)}, cwd=TOP,
                                stdout=subprocess.PIPE).stdout for task in range(3)]
        ended = run_tool("many", "--from", "1", "--to", "6", "--tally", "-", given=b"".join(lines))
        self.assertEqual((ended.status, counted(ended.output)), (0, "6 right, 0 wrong"), ended.errors)

    def test_batches_of_two_drivers(self) -> None:
        lines = [run_tool("many", "--grade", "identity", "--count", "60", "--batch", batch, "--", *TINY, *more).output
                 for batch, more in (("1-1", ()), ("2-2", ("half",)))]
        ended = run_tool("many", "--from", "1", "--to", "2", "--tally", "-", given="".join(lines).encode())
        self.assertEqual((ended.status, ended.output), (2, ""))
        self.assertIn("the batches 1-1 and 2-2 are of two drivers", ended.errors)


SSHD = shutil.which("sshd", path="/usr/sbin:" + os.environ["PATH"])


@unittest.skipUnless(HAS_PARALLEL and SSHD and shutil.which("ssh"), "no GNU parallel, or no sshd (openssh-server)")
class Hosts(WithFolder):
    """Other machines: a server for ssh that this test starts, as one host that is there and one that isn't."""

    def setUp(self) -> None:
        super().setUp()
        for name in ("host", "user"):
            subprocess.run(["ssh-keygen", "-q", "-t", "ed25519", "-N", "", "-f", self.path(name)], check=True)
        shutil.copy(self.path("user.pub"), self.path("keys"))
        with socket.socket() as free:
            free.bind(("127.0.0.1", 0))
            self.port = free.getsockname()[1]
        self.write("server", f"Port {self.port}\nListenAddress 127.0.0.1\nHostKey {self.path('host')}\nPidFile none\nUsePAM no\n"
                   f"AuthorizedKeysFile {self.path('keys')}\nStrictModes no\nMaxStartups 50\n")
        self.write("config", f"Host *\nHostName 127.0.0.1\nIdentityFile {self.path('user')}\nStrictHostKeyChecking no\nConnectTimeout 5\n"
                   f"UserKnownHostsFile /dev/null\nLogLevel ERROR\nBatchMode yes\nHost there\nPort {self.port}\nHost dead\nPort 1\n")
        if os.getuid() == 0:
            os.makedirs("/run/sshd", exist_ok=True)
        self.server = subprocess.Popen([SSHD or "sshd", "-D", "-e", "-f", self.path("server")], stderr=subprocess.DEVNULL)
        self.addCleanup(self.server.wait)
        self.addCleanup(self.server.terminate)
        for _ in range(100):
            if self.host_answers():
                return
            time.sleep(0.1)
        self.skipTest("sshd doesn't answer here")

    def ssh(self, host: str) -> str:
        return f"ssh -F {self.path('config')} {host}"

    def host_answers(self) -> bool:
        return subprocess.run([*self.ssh("there").split(), "true"], stderr=subprocess.DEVNULL).returncode == 0

    def many(self, *words: str) -> "subprocess.CompletedProcess[str]":
        driver = self.write("driver", f'#!/bin/sh\n[ $LISPM_DRIVER ] && exit\n[ "$LISPM_TEST_WORD" = "a b" ] || exit 9\necho "$SSH_CONNECTION" >>{self.path("seen")}\n'
                            f"exec {' '.join(TINY)}\n")
        command = [os.path.join(TOOLS, "many"), "--from", "1", "--to", "6", *QUICK, "--env", "LISPM_TEST_WORD", *words, "--", driver]
        return subprocess.run(command, env={**os.environ, "LISPM_TEST_WORD": "a b"}, capture_output=True, text=True, timeout=120)

    def seen(self) -> set:
        """Over which connections inputs were run."""
        with open(self.path("seen")) as file:
            return set(file.read().splitlines())

    def test_one_host(self) -> None:
        ended = self.many("--sshlogin", self.ssh("there"))
        self.assertEqual((ended.returncode, counted(ended.stdout)), (0, "6 right, 0 wrong"), ended.stderr)
        self.assertNotIn("", self.seen())

    def test_two_hosts_and_one_of_them_dead(self) -> None:
        """What was given to the dead host is run on the other."""
        ended = self.many("--sshlogin", self.ssh("there"), "--sshlogin", self.ssh("dead"))
        self.assertEqual((ended.returncode, counted(ended.stdout)), (0, "6 right, 0 wrong"), ended.stderr)

    def test_a_dead_host_alone(self) -> None:
        """Nothing is judged, and a message reports it; with another host the run continues."""
        log = self.path("log")
        ended = self.many("--sshlogin", self.ssh("dead"), "--joblog", log)
        self.assertEqual((ended.returncode, ended.stdout), (1, ""))
        self.assertIn("6 inputs weren't judged, from 1 on; --resume goes on", ended.stderr)
        ended = self.many("--sshlogin", self.ssh("there"), "--joblog", log, "--resume")
        self.assertEqual((ended.returncode, counted(ended.stdout)), (0, "6 right, 0 wrong"), ended.stderr)


if __name__ == "__main__":
    unittest.main()
