"""examples/drivers/lockstep: a driver is judged command by command, without lispm, and no refused line is sent."""
import os
import pty
import shutil
import subprocess
import unittest

from support import FIRST, TOP, Ended, with_files

LOCKSTEP = os.path.join(TOP, "examples", "drivers", "lockstep")
RUN = os.path.join(TOP, "examples", "drivers", "c", "run")
WITH_FAULT = os.path.join(TOP, "examples", "drivers", "c", "with-fault")
HEAD = "lispm-world 1\nspace 5 32 2 1 0\narea a dynamic 9\ntrace\n"
# A driver that answers `ok` to all, and then does something else.
OK = "while read -r line; do case $line in trace) go=1 ;; end) exit 0 ;; *) [ $go ] && {} ;; esac; done"


def lockstep(data: str, *driver: str) -> Ended:
    """The result of the tool, without lispm."""
    with with_files(data.encode("latin-1")) as (path,):
        ended = subprocess.run([LOCKSTEP, "--alone", "--seconds", "120", path, "--", *driver], capture_output=True)
    return Ended(ended.returncode, ended.stdout.decode("latin-1"), ended.stderr.decode("latin-1"))


def script(reply: str) -> list:
    """A driver in a shell, that does this at each command."""
    return ["sh", "-c", OK.replace("{}", reply)]


class Alone(unittest.TestCase):
    def test_right_replies(self) -> None:
        ended = lockstep(HEAD + "set 0 5\nmove 1 0\nend\n", *script("echo ok"))
        self.assertEqual((ended.status, ended.output), (0, "   5  set 0 5                  ok\n   6  move 1 0                 ok\n2 right\n"))

    def test_a_wrong_reply(self) -> None:
        ended = lockstep(HEAD + "set 0 5\neq 0 1\nset 0 6\nend\n", *script("echo ok"))
        self.assertEqual((ended.status, ended.errors), (1, "lockstep: line 6, eq 0 1: expected nil, got ok\n"))

    def test_how_it_ends(self) -> None:
        for reply, told in (("exit 3", "line 5, set 0 5: expected ok, got nothing"), ("{ printf o; exit; }", "line 5, set 0 5: cut line"),
                            ("kill -SEGV $$", "line 5, set 0 5: died SIGSEGV"), ("{ echo ok; echo ok; }", "line 6, end: expected nothing, got ok")):
            ended = lockstep(HEAD + "set 0 5\nend\n", *script(reply))
            self.assertEqual((ended.status, ended.errors), (1, f"lockstep: {told}\n"))

    def test_a_late_reply(self) -> None:
        with with_files((HEAD + "set 0 5\nend\n").encode()) as (path,):
            ended = subprocess.run([LOCKSTEP, "--alone", "--seconds", "0.5", path, "--", *script("sleep 9")], capture_output=True)
        self.assertEqual((ended.returncode, ended.stderr), (1, b"lockstep: line 5, set 0 5: timed out\n"))

    def test_a_line_that_is_refused_is_not_sent(self) -> None:
        """It is reported with its line in the file, and ends nothing."""
        ended = lockstep("; a comment\n" + HEAD + "set 0 5\nconz 1\nset 7 1\nset  0 1\nset 1 5\nend\n", *script("echo ok"))
        lines = ended.output.splitlines()
        self.assertEqual((ended.status, ended.errors, lines[-1]), (2, "", "2 right, 3 lines not sent"))
        self.assertEqual(lines[1], "   7  conz 1                   not sent, since it would be refused: unknown command")
        self.assertEqual([line.split()[0] for line in lines[:-1]], ["6", "7", "8", "9", "10"])

    def test_a_world_that_is_refused(self) -> None:
        ended = lockstep(HEAD.replace("area a", "area A"), *script("echo ok"))
        self.assertEqual((ended.status, ended.errors), (2, "lockstep: line 3, area A dynamic 9: bad name, so nothing is run\n"))

    def test_a_terminal(self) -> None:
        """Each line is answered before the next is typed."""
        child, terminal = pty.fork()
        if child == 0:
            os.execv(LOCKSTEP, ["lockstep", "--alone", "-", "--", *script("echo ok")])
        written = b""
        for typed, wanted in ((HEAD.encode(), b"trace\r\n"), (b"set 0 5\n", b"   5  set 0 5                  ok"),
                              (b"conz\n", b"not sent, since"), (b"set 1 7\n", b"   7  set 1 7                  ok"), (b"end\n", b"2 right")):
            os.write(terminal, typed)
            while wanted not in written:
                written += os.read(terminal, 1000)
        os.waitpid(child, 0)
        os.close(terminal)


@unittest.skipUnless(shutil.which("cc") and shutil.which("patch"), "no cc, or no patch")
class WithTheCDriver(unittest.TestCase):
    def test_all_is_right(self) -> None:
        ended = lockstep(FIRST.data.decode(), RUN)
        self.assertEqual((ended.status, ended.output.splitlines()[-1]), (0, "10 right"))

    def test_a_planted_fault(self) -> None:
        with open(os.path.join(TOP, "examples", "references")) as file:
            ended = lockstep(file.read(), WITH_FAULT, "remembered-set-short-by-one")
        self.assertEqual((ended.status, ended.errors), (1, "lockstep: line 20, car 4 3: expected 7, got nil\n"))


if __name__ == "__main__":
    unittest.main()
