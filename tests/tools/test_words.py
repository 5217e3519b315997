"""What every tool does alike: its words, its statuses, closed pipes, and no traceback for a user's mistake."""
import os
import re
import signal
import subprocess
import unittest

from support import FIRST, TOOLS, run_tool, with_files

OURS = ["judge", "check", "replies"]
NO_FILE = "/nowhere/file"
MISTAKES = [
    ("judge",), ("judge", "a"), ("judge", NO_FILE, "-", "0"), ("judge", "-", NO_FILE, "0"), ("judge", "-", "-", "0"),
    ("judge", "-", os.devnull, "zero"), ("judge", "/", "-", "0"), ("judge", "-", os.devnull, "0", "--grade", "best"),
    ("judge", "-", os.devnull, "0", "--faults", "x"), ("judge", "-", os.devnull, "0", "--reference", NO_FILE),
    ("judge", "-", os.devnull, "0", "--jsn"), ("judge", "-", os.devnull, "0", "1"), ("check",), ("check", NO_FILE),
    ("check", "/"), ("check", "-", "-"), ("check", "--json", "-"), ("replies",), ("replies", NO_FILE, "-"),
    ("replies", "-", "-"), ("replies", "-", "/"), ("replies", "-", os.devnull, "x"),
]
ODD_INPUTS = [b"", b"\n", b"\xff\xfe\0\0", b"; a", b"trace\nend\n", bytes(range(256)), FIRST.data[:-4], FIRST.data * 2,
              b"lispm-world 1\nspace\narea\ntrace\n", b"error line 1: not a world\n"]


class Words(unittest.TestCase):
    def test_help_is_the_docstring(self) -> None:
        for name in OURS:
            ended = run_tool(name, "--help")
            self.assertEqual((ended.status, ended.errors), (0, ""), name)
            with open(os.path.join(TOOLS, name)) as file:
                text = file.read()
            self.assertEqual(ended.output, text.split('"""')[1].strip() + "\n")
            for option in re.findall(r'add_argument\("(--[a-z-]+)"', text):
                self.assertIn(option, ended.output, name)

    def test_mistakes_are_one_line(self) -> None:
        for name, *words in MISTAKES:
            with self.subTest(" ".join([name, *words])):
                ended = run_tool(name, *words)
                self.assertEqual((ended.status, ended.output), (2, ""))
                self.assertRegex(ended.errors, f"^{name}: [^\n]+\n$")

    def test_no_program(self) -> None:
        for name, words in (("replies", ["-"]), ("replies", ["-", "--lispm", NO_FILE]),
                            ("judge", ["-", os.devnull, "0", "--lispm", NO_FILE])):
            ended = run_tool(name, *words, given=FIRST.data)
            self.assertEqual((ended.status, ended.output), (69, ""))
            self.assertRegex(ended.errors, f"^{name}: no program [^\n]*bin/build lispm[^\n]*\n$")

    def test_a_file_that_is_no_program(self) -> None:
        with with_files(b"no program") as (path,):
            os.chmod(path, 0o755)
            ended = run_tool("replies", "-", "--lispm", path, given=FIRST.data)
            self.assertEqual((ended.status, ended.output), (69, ""))
            self.assertRegex(ended.errors, "^replies: [^\n]+\n$")

    def test_odd_inputs(self) -> None:
        for data in ODD_INPUTS:
            with with_files(data) as (path,):
                for words in (["check", path], ["judge", path, "-", "0", "--reference", path], ["replies", path, "-"]):
                    ended = run_tool(*words, given=data)
                    self.assertIn(ended.status, (0, 1), (words[0], data))
                    self.assertEqual(ended.errors, "", (words[0], data))

    def test_a_closed_pipe_ends_quietly(self) -> None:
        data = FIRST.data.replace(b"end\n", b"eq 1 1\n" * 100000 + b"end\n")
        with with_files(data, FIRST.replies + b"t\n" * 100000) as (path, replies):
            command = f"'{TOOLS}/replies' '{path}' '{replies}' | head -1"
            ended = subprocess.run(command, shell=True, stdout=subprocess.PIPE, stderr=subprocess.PIPE)
        self.assertEqual((ended.stdout.count(b"\n"), ended.stderr), (1, b""))

    def test_a_link_to_a_tool(self) -> None:
        with with_files(FIRST.data) as (path,):
            link = path + "-check"
            os.symlink(os.path.join(TOOLS, "check"), link)
            ended = subprocess.run([link, path], stdout=subprocess.PIPE, stderr=subprocess.PIPE)
        self.assertEqual((ended.returncode, ended.stderr), (0, b""))

    def test_control_c_is_one_line(self) -> None:
        """The signal is sent when the tool reads its input: a pipe holds less than this, so the write ends after the tool has begun."""
        running = subprocess.Popen([os.path.join(TOOLS, "check"), "-"], stdin=subprocess.PIPE, stderr=subprocess.PIPE)
        assert running.stdin
        running.stdin.write(b"x" * 2 ** 21)
        running.stdin.flush()
        running.send_signal(signal.SIGINT)
        _, errors = running.communicate()
        self.assertEqual((running.returncode, errors), (130, b"check: stopped\n"))
