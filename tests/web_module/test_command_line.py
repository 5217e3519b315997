"""node web/lispm.mjs: what it reads and writes, and how it ends."""
import os
import subprocess
import unittest
from concurrent.futures import ThreadPoolExecutor
from typing import List

from support import TOP, WEB, Answer, cases, needs_node, read, run_node

MODULE = os.path.join(WEB, "lispm.mjs")
SESSION = read(TOP, "examples", "session.in")
REPLIES = read(TOP, "examples", "session.out")
PROCESSES = min(4, os.cpu_count() or 1)     # that run side by side
USAGE = Answer(7, b"error: usage\n")


@needs_node
class CommandLine(unittest.TestCase):
    def test_cases(self) -> None:
        """Each session of tests/sessions, with its arguments."""
        found = list(cases(os.path.join(TOP, "tests", "sessions")))
        with ThreadPoolExecutor(PROCESSES) as pool:
            answers = list(pool.map(lambda case: run_node(*case.given, data=case.data), found))
        for case, answer in zip(found, answers):
            with self.subTest(case=case.name):
                self.assertEqual(answer, case.answer)

    def test_arguments_that_are_refused(self) -> None:
        """Before anything is read."""
        mistakes: List[List[str]] = [
            [], ["x"], [""], ["replay", "x"], ["inside", "x"], ["inside", "--fail"], ["inside", "--fail", "01"], ["why"]]
        for given in mistakes:
            with self.subTest(given=given), open(os.devnull) as nothing:
                ended = subprocess.run(["node", MODULE, *given], stdin=nothing, stdout=subprocess.PIPE, stderr=subprocess.PIPE)
                self.assertEqual(Answer(ended.returncode, ended.stdout), USAGE)
                self.assertIn(b"--help", ended.stderr)

    def test_inside_is_a_mode(self) -> None:
        found = run_node("inside", data=SESSION)
        self.assertEqual((found.status, found.output[:len(REPLIES) + 14]), (0, REPLIES + b"lispm-inside 1"))

    def test_a_file(self) -> None:
        """A last argument that names a file is read; the value of an option, or another argument, is none."""
        path = os.path.join(TOP, "examples", "session.in")
        self.assertEqual(run_node("replay", path), Answer(0, REPLIES))
        self.assertEqual(run_node("inside", "--fail", "9", path), run_node("inside", "--fail=9", data=SESSION))
        for given in (["why", "--object", path], [path, path], ["replay", path, path], ["replay", path + "x"], ["replay", TOP]):
            self.assertEqual(run_node(*given), USAGE)

    def test_standard_input_fails(self) -> None:
        """A folder can't be read."""
        for mode in ("replay", "census", "inside"):
            fd = os.open("/", os.O_RDONLY)
            ended = subprocess.run(["node", MODULE, mode], stdin=fd, stdout=subprocess.PIPE)
            os.close(fd)
            self.assertEqual(Answer(ended.returncode, ended.stdout), Answer(3, b"error: read failed\n"))

    @unittest.skipUnless(os.path.exists("/dev/full"), "there is no /dev/full")
    def test_standard_output_fails(self) -> None:
        """A full disk, and a reader that went away."""
        for given in (["replay"], ["inside"], ["x"]):
            with open("/dev/full", "wb") as full:
                ended = subprocess.run(["node", MODULE, *given], input=SESSION, stdout=full, stderr=subprocess.PIPE)
            self.assertEqual(ended.returncode, 1)

    def test_line_by_line(self) -> None:
        """Each reply is written before the next line is given."""
        node = subprocess.Popen(["node", MODULE, "replay"], stdin=subprocess.PIPE, stdout=subprocess.PIPE)
        assert node.stdin is not None and node.stdout is not None
        head = b"lispm-world 1\nspace 16 32 8 1 2\narea work dynamic 6\ntrace\n"
        for text, reply in ((head + b"set 0 5\n", b"ok\n"), (b"cons 1 wo", None), (b"rk 0 0\n", b"ok\n"), (b"car 2 1\n", b"5\n")):
            node.stdin.write(text)
            node.stdin.flush()
            if reply is not None:
                self.assertEqual(node.stdout.readline(), reply)
        rest, _ = node.communicate(b"end")
        self.assertEqual((node.returncode, rest), (0, b""))

    def test_it_ends_at_the_first_error(self) -> None:
        """Though the input goes on."""
        node = subprocess.Popen(["node", MODULE, "replay"], stdin=subprocess.PIPE, stdout=subprocess.PIPE)
        assert node.stdin is not None and node.stdout is not None
        node.stdin.write(b"x" * 40000)
        node.stdin.flush()
        self.assertEqual(node.stdout.readline(), b"error line 1: line too long\n")
        self.assertEqual(node.wait(60), 2)
        node.stdin.close()
        node.stdout.close()

    def test_help_and_version(self) -> None:
        told = run_node("--help")
        self.assertEqual((told.status, told.output[:27]), (0, b"usage: node web/lispm.mjs M"))
        version = read(TOP, "VERSION").decode().strip()
        lines = run_node("--version").output.decode().splitlines()
        self.assertEqual(lines[0], f"lispm {version}, compiled for WebAssembly")
        self.assertEqual(lines[1:], read(WEB, "BUILD").decode().splitlines())

    def test_the_scripts(self) -> None:
        """web/lispm and web/lispm_inside take the arguments of the programs."""
        for name, given, mode in (("lispm", ["replay"], ["replay"]), ("lispm_inside", ["--fail", "1"], ["inside", "--fail", "1"])):
            ended = subprocess.run([os.path.join(WEB, name), *given], input=SESSION, stdout=subprocess.PIPE, cwd="/")
            self.assertEqual(Answer(ended.returncode, ended.stdout), run_node(*mode, data=SESSION))


if __name__ == "__main__":
    unittest.main()
