"""What the tests of the tools share: runs of a tool, files for it, and a session with its replies."""
import os
import signal
import subprocess
import tempfile
from contextlib import contextmanager
from typing import Iterator, List, NamedTuple, Optional

HERE = os.path.dirname(os.path.realpath(__file__))
TOP = os.path.join(HERE, "..", "..")
TOOLS = os.path.join(TOP, "tools")
FOLDER = os.path.join(TOP, "tests", "sessions")

# In the background SIGINT is ignored; the programs that are tested here have to hear it.
signal.signal(signal.SIGINT, signal.default_int_handler)


class Ended(NamedTuple):
    status: int
    output: str
    errors: str


class Example(NamedTuple):
    data: bytes
    replies: bytes


def run_tool(name: str, *words: str, given: bytes = b"", lispm: Optional[str] = None) -> Ended:
    """Runs a tool. It finds no program, if none is named."""
    environment = {**os.environ, "LISPM": lispm or "/nowhere/lispm"}
    ended = subprocess.run([os.path.join(TOOLS, name), *words], input=given, env=environment,
                           stdout=subprocess.PIPE, stderr=subprocess.PIPE)
    return Ended(ended.returncode, ended.stdout.decode("latin-1"), ended.stderr.decode("latin-1"))


@contextmanager
def with_files(*texts: bytes) -> Iterator[List[str]]:
    """The paths of files with these texts."""
    with tempfile.TemporaryDirectory() as folder:
        paths = [os.path.join(folder, f"file-{at}") for at in range(len(texts))]
        for path, text in zip(paths, texts):
            with open(path, "wb") as file:
                file.write(text)
        yield paths


def read(name: str, part: str) -> bytes:
    """A file of a session of tests/sessions."""
    with open(os.path.join(FOLDER, name, part), "rb") as file:
        return file.read()


SESSIONS = [name for name in sorted(os.listdir(FOLDER)) if read(name, "words").split() == [b"replay"]]
FIRST = Example(b"""lispm-world 1
space 16 32 8 1 2
area work dynamic 6
trace
set 0 5
cons 1 work 0 0
cons 2 work 1 1
car 3 2
cdr 4 2
eq 3 4
cons 5 work 0 0
eq 5 1
cons 6 work 0 0
car 7 0
end
""", b"""ok
ok
ok
cons
cons
t
ok
nil
exhausted work 6 2 6
wrong-type
""")
