"""Finds the programs of this repository, and runs a program on bytes. It never proves or builds one. If a program isn't
built, the module in web/ runs in its place, if node is there."""
import argparse
import os
import shutil
import subprocess
from typing import List, NamedTuple, Optional, Set

from . import tool

TOP = os.path.dirname(os.path.dirname(os.path.dirname(os.path.realpath(__file__))))
OPTIONS = {"lispm": "--lispm", "lispm_inside": "--inside"}
WEB = os.path.join(TOP, "web")
# Of which programs it was already said that the module runs in their place.
told: Set[str] = set()


class Ended(NamedTuple):
    """How a run of a program ended. The status of a program that a signal ended is the signal's number, negated."""
    status: int
    output: bytes
    timed_out: bool = False


def add_option(words: argparse.ArgumentParser, name: str = "lispm") -> None:
    """Adds the word that names this program: --lispm PATH, or --inside PATH."""
    words.add_argument(OPTIONS[name], metavar="PATH", dest=name)


def can_run(path: str) -> bool:
    """A file is a program."""
    return os.path.isfile(path) and os.access(path, os.X_OK)


def on_node(name: str) -> Optional[str]:
    """The script that runs the module web/lispm.wasm as this program, if the program isn't built, and node is there."""
    built, script = os.path.join(TOP, "crates", name, "out", name), os.path.join(WEB, name)
    has_module = can_run(script) and os.path.isfile(os.path.join(WEB, "lispm.wasm"))
    return script if has_module and not can_run(built) and shutil.which("node") else None


def tell_of_node(name: str) -> None:
    """Says once that the module runs in the place of a program."""
    if name not in told:
        told.add(name)
        tool.tell(f"{name} isn't built here, so node runs web/lispm.wasm in its place (see web/README.md)")


def named(name: str, path: Optional[str]) -> Optional[str]:
    """The path of a program that the user names: `path`, else the one in LISPM or LISPM_INSIDE."""
    return path or os.environ.get(name.upper())


def place(name: str, path: Optional[str]) -> str:
    """The path of a program: the one that the user names, else the built one, or what runs in its place on node."""
    built = os.path.join(TOP, "crates", name, "out", name)
    return named(name, path) or on_node(name) or built


def is_there(name: str, path: Optional[str]) -> bool:
    """A program can be run."""
    return can_run(place(name, path))


def find(name: str, path: Optional[str]) -> str:
    """The path of a program, which must be there."""
    found = place(name, path)
    if not is_there(name, path):
        shown = os.path.relpath(found, TOP) if found.startswith(TOP) else found
        raise tool.ToolError(f"no program {shown}: build it by `bin/build {name}`, or name it by {OPTIONS[name]} PATH or "
                             f"${name.upper()}; or install node 18 or later", tool.MISSING)
    if not named(name, path) and found == on_node(name):
        tell_of_node(name)
    return os.path.abspath(found)


def run(program: str, words: List[str], data: bytes, seconds: Optional[float] = None) -> Ended:
    """Runs a program with these arguments on this standard input, for at most this many seconds."""
    try:
        ended = subprocess.run([program] + words, input=data, stdout=subprocess.PIPE, timeout=seconds)
    except subprocess.TimeoutExpired as late:
        return Ended(-9, late.stdout or b"", True)
    except OSError as error:
        raise tool.ToolError(f"{program}: {error.strerror}", tool.MISSING) from None
    return Ended(ended.returncode, ended.stdout)


def replay(program: str, data: bytes, seconds: Optional[float] = None) -> Ended:
    """Runs `lispm replay` on an input."""
    return run(program, ["replay"], data, seconds)
