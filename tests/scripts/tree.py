"""A small tree with the repository's scripts, three crates and a stand-in for `rt`, in which they are run."""
import os
import shutil
import signal
import subprocess
import tempfile
import unittest
from typing import List, NamedTuple, Optional

HERE = os.path.dirname(os.path.realpath(__file__))
TOP = os.path.dirname(os.path.dirname(HERE))
COPIED = ["bin", "examples", "tools", "man", "tests/run", "tests/lib.py", "tests/scripts", "bench", "VERSION", "CHANGELOG.md", "LICENSE-MIT",
          "LICENSE-APACHE", "crates/lispm_c/lispm.h", "crates/lispm_c/lispm.pc"]
CRATES = {"low": "", "lispm": "low", "lispm_bands": "low", "lispm_inside": "low", "lispm_c staticlib": "low"}
# The tree's own commands: what a shell script and Python want, and no `rt`.
COMMANDS = ["python3", "sh", "bash", "env", "git", "sed", "ls", "cat", "grep", "sleep", "dirname", "readlink", "basename", "mkdir",
            "chmod", "tr", "head", "mv"]
OLD = 1_000_000_000

# In the background SIGINT is ignored; the programs that are tested here have to hear it.
signal.signal(signal.SIGINT, signal.default_int_handler)


class Ended(NamedTuple):
    """How a command ended."""
    status: int
    out: str
    err: str


class Tree(unittest.TestCase):
    """A test in a tree of its own."""

    maxDiff = None

    def setUp(self) -> None:
        self.top = tempfile.mkdtemp(prefix="lispm-tree-")
        self.addCleanup(shutil.rmtree, self.top)
        self.calls_file = os.path.join(self.top, "calls")
        for path in COPIED:
            self.copy(path)
        self.write("crates.txt", "# tree: crates of a test\n" + "".join(f"{name}: {below}\n" for name, below in CRATES.items()))
        names = [row.split()[0] for row in CRATES]
        for name in names:
            self.write(f"crates/{name}/src/main.rt", "")
        for path in ["crates.txt"] + [f"crates/{name}/src/main.rt" for name in names]:
            os.utime(self.path(path), (OLD, OLD))
        self.commands = self.path("commands")
        os.mkdir(self.commands)
        for name in COMMANDS:
            os.symlink(shutil.which(name) or "/nowhere", os.path.join(self.commands, name))
        os.symlink(self.path("tests/scripts/rt"), os.path.join(self.commands, "rt"))

    def copy(self, path: str) -> None:
        """Copies a file or folder of the repository."""
        source, to = os.path.join(TOP, path), self.path(path)
        os.makedirs(os.path.dirname(to), exist_ok=True)
        left_out = shutil.ignore_patterns("__pycache__", "out")
        if os.path.isdir(source) and not os.path.islink(source):
            shutil.copytree(source, to, ignore=left_out, symlinks=True)
        else:
            shutil.copy2(source, to, follow_symlinks=False)

    def path(self, path: str) -> str:
        """A path in the tree."""
        return os.path.join(self.top, path)

    def write(self, path: str, text: str) -> None:
        """Writes a file of the tree."""
        os.makedirs(os.path.dirname(self.path(path)), exist_ok=True)
        with open(self.path(path), "w") as file:
            file.write(text)

    def read(self, path: str) -> str:
        """The text of a file of the tree."""
        with open(self.path(path)) as file:
            return file.read()

    def without_rt(self) -> None:
        """There is no command `rt` any more."""
        os.remove(os.path.join(self.commands, "rt"))

    def build_by_hand(self, name: str = "lispm") -> None:
        """Puts a program at the path at which a build writes it."""
        os.makedirs(self.path(f"crates/{name}/out"), exist_ok=True)
        shutil.copy(os.path.join(HERE, "program"), self.path(f"crates/{name}/out/{name}"))

    def build_library(self) -> None:
        """Puts something in the place of the C library."""
        self.write("crates/lispm_c/out/liblispm.a", "!<arch>\n")

    def make_stale(self, name: str = "lispm") -> None:
        """A built program that is older than a source."""
        self.build_by_hand(name)
        program = self.path(f"crates/{name}/out/{name}")
        os.utime(program, (OLD + 5, OLD + 5))
        os.utime(self.path("crates/low/src/main.rt"), (OLD + 9, OLD + 9))

    def environment(self, **more: str) -> dict:
        """The environment of the commands that are run."""
        return {"PATH": self.commands, "RT_CALLS": self.calls_file, "HOME": self.top, **more}

    def start(self, *words: str, cwd: str = "", **more: str) -> subprocess.Popen:
        """Starts a command of the tree, in a group of processes of its own."""
        return subprocess.Popen([self.path(words[0]), *words[1:]], cwd=self.path(cwd), env=self.environment(**more),
                                stdin=subprocess.PIPE, stdout=subprocess.PIPE, stderr=subprocess.PIPE, text=True,
                                start_new_session=True)

    def run_words(self, *words: str, data: str = "", cwd: str = "", **more: str) -> Ended:
        """Runs a command of the tree on this standard input."""
        process = self.start(*words, cwd=cwd, **more)
        out, err = process.communicate(data, timeout=60)
        self.assertNotIn("Traceback", err)
        return Ended(process.returncode, out, err)

    def calls(self) -> List[str]:
        """The calls of `rt` so far, except those for its version."""
        if not os.path.exists(self.calls_file):
            return []
        return [line for line in self.read("calls").splitlines() if not line.endswith(": version")]

    def assert_refused(self, ended: Ended, cause: Optional[str]) -> None:
        """The arguments were refused as the program refuses them, the cause was printed, and nothing was proved or tried."""
        self.assertEqual((ended.status, ended.out), (7, "error: usage\n"), ended.err)
        self.assertIn(cause or "", ended.err)
        self.assertEqual(self.calls(), [])
