"""What the tests of the module share: runs of it on node, cases, and the built programs."""
import base64
import json
import os
import shutil
import subprocess
import unittest
from typing import Any, Callable, Dict, Iterator, List, NamedTuple, Optional, TypeVar

from lib import program

HERE = os.path.dirname(os.path.realpath(__file__))
TOP = os.path.dirname(os.path.dirname(HERE))
WEB = os.path.join(TOP, "web")
T = TypeVar("T", bound=Callable[..., object])
has_node = shutil.which("node") is not None
needs_node = unittest.skipUnless(has_node and os.path.isfile(os.path.join(WEB, "lispm.wasm")), "node isn't there, or web/lispm.wasm")


class Answer(NamedTuple):
    status: int
    output: bytes


class Case(NamedTuple):
    """Arguments of the program lispm, its input, and the right answer."""
    name: str
    given: List[str]
    data: bytes
    answer: Answer


def built(name: str) -> Optional[str]:
    """The path of a program itself, and not of the module in its place."""
    path = program.place(name, None)
    return path if program.can_run(path) and path != program.on_node(name) else None


def needs_program(name: str) -> Callable[[T], T]:
    """Leaves a test out if a program isn't built."""
    return unittest.skipUnless(built(name), f"{name} isn't built")


def run_program(name: str, given: List[str], data: bytes) -> Answer:
    ended = program.run(built(name) or name, given, data, 600)
    return Answer(ended.status, ended.output)


def run_node(*given: str, data: bytes = b"") -> Answer:
    """Runs the command line of the module."""
    ended = subprocess.run(["node", os.path.join(WEB, "lispm.mjs"), *given], input=data, stdout=subprocess.PIPE, stderr=subprocess.PIPE)
    return Answer(ended.returncode, ended.stdout)


class Module:
    """The module in a process of node that answers call after call."""

    def __init__(self) -> None:
        self.node = subprocess.Popen(["node", os.path.join(HERE, "answers.mjs")], stdin=subprocess.PIPE, stdout=subprocess.PIPE)
        assert self.node.stdin and self.node.stdout
        self.asked, self.told = self.node.stdin, self.node.stdout

    def ask(self, call: str, given: List[str], data: bytes) -> Any:
        asked = {"call": call, "given": given, "input": base64.b64encode(data).decode()}
        self.asked.write(json.dumps(asked).encode() + b"\n")
        self.asked.flush()
        return json.loads(self.told.readline())

    def answer(self, call: str, given: List[str], data: bytes) -> Answer:
        return answer_of(self.ask(call, given, data))

    def close(self) -> None:
        self.asked.close()
        self.told.close()
        self.node.wait()


def answer_of(told: Dict[str, Any]) -> Answer:
    return Answer(told["status"], base64.b64decode(told["output"]))


class WithModule(unittest.TestCase):
    """Tests that ask the module."""

    module: Module

    @classmethod
    def setUpClass(cls) -> None:
        cls.module = Module()

    @classmethod
    def tearDownClass(cls) -> None:
        cls.module.close()

    def check(self, case: Case) -> None:
        """A case by one call; an input of replay by a session, too."""
        with self.subTest(case=case.name):
            self.assertEqual(self.module.answer("run", case.given, case.data), case.answer)
            if case.given == ["replay"]:
                self.assertEqual(self.module.answer("session", [], case.data), case.answer)


def read(*path: str) -> bytes:
    with open(os.path.join(*path), "rb") as file:
        return file.read()


def listed_cases(folder: str) -> Iterator[Case]:
    """The cases of a folder with a MANIFEST of lines NAME MODE STATUS [OBJECT]."""
    for line in read(folder, "MANIFEST").decode().splitlines():
        name, mode, status, *number = line.split()
        given = [mode] + [word for one in number for word in ("--object", one)]
        yield Case(name, given, read(folder, f"{name}.in"), Answer(int(status), read(folder, f"{name}.out")))


def cases(folder: str) -> Iterator[Case]:
    """The cases of a folder but those of bands: by its MANIFEST, or a folder for each."""
    if os.path.isfile(os.path.join(folder, "MANIFEST")):
        yield from (case for case in listed_cases(folder) if case.given != ["bands"])
        return
    for name in sorted(os.listdir(folder)):
        given = read(folder, name, "words").decode().split()
        if given[:1] != ["BANDS"]:
            yield Case(name, given, read(folder, name, "in"), Answer(int(read(folder, name, "status")), read(folder, name, "out")))
