"""The inputs of a run: they are drawn from numbers, or are the files of a folder."""
import glob
import hashlib
import os
import shlex
from typing import Any, Dict, List

from .. import tool
from ..inputs import drawing, session

LIB = os.path.dirname(os.path.dirname(os.path.realpath(__file__)))


def checksum_of(texts: List[bytes]) -> str:
    told = hashlib.sha256()
    for text in texts:
        told.update(hashlib.sha256(text).digest())
    return told.hexdigest()[:16]


def checksum_of_tools() -> str:
    """The checksum of what draws and judges inputs."""
    return checksum_of([tool.read(path) for path in sorted(glob.glob(os.path.join(LIB, "**", "*.py"), recursive=True))])


class Inputs:
    """Numbered inputs. `told` is how a batch describes them, and `again` is the command that makes one of them."""

    def data(self, number: int) -> bytes:
        raise NotImplementedError

    def told(self) -> Dict[str, Any]:
        raise NotImplementedError

    def again(self, number: int) -> str:
        raise NotImplementedError


class Drawn(Inputs):
    """Inputs that are drawn; `words` are the arguments of `draw` for them."""

    def __init__(self, what: drawing.What, words: List[str]):
        self.what, self.words = what, words

    def data(self, number: int) -> bytes:
        return drawing.drawn(number, self.what)

    def told(self) -> Dict[str, Any]:
        what = self.what
        told = {"drawn": self.words, "kind": what.kind, "grade": what.grade, "size": what.size}
        return {**told, "weights": [list(pair) for pair in what.weights]} if what.weights else told

    def again(self, number: int) -> str:
        return f"made again by: tools/draw {shlex.join(self.words)} --number {number}"


class Folder(Inputs):
    """The files of a folder, numbered from 1 by their names. A file may be a commented session."""

    def __init__(self, path: str):
        self.path = path
        try:
            self.names = sorted(name for name in os.listdir(path) if not name.startswith("."))
        except OSError as error:
            raise tool.ToolError(f"{path}: {error.strerror}") from None
        self.names = [name for name in self.names if os.path.isfile(os.path.join(path, name))]
        if not self.names:
            raise tool.ToolError(f"{path}: no files")

    def file(self, number: int) -> str:
        return os.path.join(self.path, self.names[number - 1])

    def data(self, number: int) -> bytes:
        return session.parse(tool.read(self.file(number))).text()

    def told(self) -> Dict[str, Any]:
        sizes = [f"{name} {os.path.getsize(os.path.join(self.path, name))}" for name in self.names]
        return {"files": len(self.names), "checksum": checksum_of([one.encode("utf-8", "surrogateescape") for one in sizes])}

    def again(self, number: int) -> str:
        return f"its input: {self.file(number)}"
