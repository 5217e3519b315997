"""What the tests of the drawing and of the page share: sessions, what lispm_inside writes of them, and drawings by node."""
import base64
import glob
import json
import os
import subprocess
import unittest
from functools import lru_cache
from typing import Any, Dict, List, NamedTuple

from lib import program
from lib.inputs import session
from lib.judge import answers
from lib.pictures import inside, node

HERE = os.path.dirname(os.path.realpath(__file__))
TOP = os.path.dirname(os.path.dirname(os.path.dirname(HERE)))
INSIDE = program.place("lispm_inside", None)
has_inside, has_node = program.is_there("lispm_inside", None), node.find() is not None
needs_node = unittest.skipUnless(has_node, "node 18 or later isn't there")
needs_both = unittest.skipUnless(has_inside and has_node, "lispm_inside isn't built, or node 18 or later isn't there")
ANSWERS = os.path.join(TOP, "tests", "web_module", "answers.mjs")
DRAW = os.path.join(TOP, "web", "draw", "draw.mjs")


class Step(NamedTuple):
    """A moment of a session: its number, the areas of the world, and what lispm_inside writes."""
    number: int
    areas: List[str]
    output: str


def sessions() -> Dict[str, str]:
    """The paths of all sessions of examples/ and of the lessons, by their names."""
    paths = sorted(glob.glob(os.path.join(TOP, "examples", "*"))) + sorted(glob.glob(os.path.join(TOP, "examples", "tour", "*", "session")))
    return {os.path.relpath(path, os.path.join(TOP, "examples")): path for path in paths if is_session(path)}


def is_session(path: str) -> bool:
    if not os.path.isfile(path):
        return False
    with open(path, "rb") as file:
        data = file.read()
    return b"\ntrace\n" in data and b"\nend\n" in data


def path_of(name: str) -> str:
    return next(path for found, path in sessions().items() if found == name)


def lesson(number: int) -> str:
    return next(path for name, path in sessions().items() if name.startswith(f"tour/{number:02}-"))


def parsed(path: str) -> session.Session:
    with open(path, "rb") as file:
        return session.parse(file.read())


def insides(inputs: List[bytes]) -> List[str]:
    """What lispm_inside writes of each input. If the module runs in its place, one process of node answers all."""
    if INSIDE != program.on_node("lispm_inside"):
        return [program.run(INSIDE, [], data).output.decode("latin-1") for data in inputs]
    asked = [{"call": "inside", "given": [], "input": base64.b64encode(data).decode()} for data in inputs]
    ended = subprocess.run([node.find() or "node", ANSWERS], input="".join(json.dumps(one) + "\n" for one in asked).encode(),
                           stdout=subprocess.PIPE, check=True)
    return [base64.b64decode(json.loads(line)["output"]).decode("latin-1") for line in ended.stdout.splitlines()]


def machine_of(text: str) -> inside.Machine:
    """The machine that lispm_inside's text describes."""
    found = inside.split(text.encode("latin-1"))[1]
    assert found is not None
    return found


def last_reply(text: str, trace: session.Session, number: int) -> str:
    """The reply to a command, from what lispm_inside writes after it."""
    replies = inside.split(text.encode("latin-1"))[0]
    return "\n".join(answers.split(trace.cut(number), replies).answers[-1].lines)


@lru_cache(maxsize=None)
def steps(path: str) -> List[Step]:
    """Each moment of a session."""
    trace = parsed(path)
    texts = insides([trace.cut(number).text() for number in range(len(trace.commands) + 1)])
    return [Step(number, trace.areas, text) for number, text in enumerate(texts)]


def drawn(values: List[Dict[str, Any]]) -> List[str]:
    """What web/draw makes of these, by one run of node."""
    given = "".join(json.dumps(value) + "\n" for value in values).encode()
    ended = subprocess.run([node.find() or "node", DRAW, "--lines"], input=given, stdout=subprocess.PIPE, check=True)
    return [json.loads(line) for line in ended.stdout.decode().splitlines()]


def memory_of(step: Step, **more: Any) -> Dict[str, Any]:
    """What draws memory at a moment."""
    moment = {"number": step.number, "command": "", "reply": [], "output": step.output}
    return {"what": "memory", "moments": [moment], "areas": step.areas, "pages": False, **more}


def objects_of(step: Step) -> Dict[str, Any]:
    """What draws the objects at a moment."""
    return {"what": "objects", "output": step.output, "areas": step.areas}
