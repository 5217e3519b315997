"""What the tests of accounts and plot share: runs of a tool, the programs, and their answers about a session."""
import os
import subprocess
import unittest
from typing import List, NamedTuple

from lib import program
from lib.inputs import session
from lib.judge import answers

HERE = os.path.dirname(os.path.realpath(__file__))
TOP = os.path.dirname(os.path.dirname(HERE))
LISPM, INSIDE = program.place("lispm", None), program.place("lispm_inside", None)
has_lispm, has_inside = program.is_there("lispm", None), program.is_there("lispm_inside", None)
needs_lispm = unittest.skipUnless(has_lispm, "lispm isn't built")
needs_inside = unittest.skipUnless(has_lispm and has_inside, "lispm_inside, or lispm, isn't built")


class Ended(NamedTuple):
    status: int
    output: bytes
    errors: str


def tool(name: str, *words: str, given: bytes = b"", **environment: str) -> Ended:
    """Runs a tool with more words of the environment."""
    ended = subprocess.run([os.path.join(TOP, "tools", name), *words], input=given, env={**os.environ, **environment},
                           stdout=subprocess.PIPE, stderr=subprocess.PIPE)
    return Ended(ended.returncode, ended.stdout, ended.stderr.decode())


def example(name: str) -> str:
    return os.path.join(TOP, "examples", name)


def parsed(path: str) -> session.Session:
    with open(path, "rb") as file:
        return session.parse(file.read())


def replies(trace: session.Session) -> List[answers.Answer]:
    """What lispm answers."""
    return answers.split(trace, program.replay(LISPM, trace.text()).output).answers


def inside_lines(trace: session.Session, number: int) -> List[str]:
    """The lines of the machine after a command, as lispm_inside writes them."""
    lines = program.run(INSIDE, [], trace.cut(number).text()).output.decode().splitlines()
    return lines[lines.index("lispm-inside 1"):]
