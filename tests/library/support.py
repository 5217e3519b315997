"""What the tests of the library share: the archive, C programs that are compiled over it, and runs of them."""
import atexit
import functools
import os
import shutil
import subprocess
import tempfile
import unittest
from typing import Dict, List, Mapping, NamedTuple, Optional

from lib import library, program, tool

HERE = os.path.dirname(os.path.realpath(__file__))
TOP = os.path.dirname(os.path.dirname(HERE))
HEADER = os.path.join(TOP, "crates", "lispm_c")
FLAGS = ["-Wall", "-Wextra", "-Werror", "-pedantic", "-g", "-O1", f"-I{HEADER}"]
SECONDS = 300


class Ended(NamedTuple):
    """How a program ended."""
    status: int
    output: bytes
    errors: bytes


def make_library() -> str:
    """Makes the archive if it isn't there; the cause if it can't be used."""
    if shutil.which("cc") is None:
        return "there is no C compiler: apt-get install gcc"
    if os.environ.get("LISPM_LIBRARY"):
        return "" if library.find() else "there is no library"
    made = subprocess.run([os.path.join(TOP, "bin", "library")], stdin=subprocess.DEVNULL, stderr=subprocess.PIPE, text=True)
    return made.stderr.strip().split("\n")[-1] if made.returncode else ""


def archive() -> str:
    """The path of the archive."""
    found = library.find()
    if found is None:
        raise unittest.SkipTest("the library isn't built: bin/library makes it")
    return found


@functools.lru_cache(maxsize=None)
def folder() -> str:
    """A folder for what is compiled, which goes at the end."""
    made = tempfile.mkdtemp(prefix="lispm-library-")
    atexit.register(shutil.rmtree, made, True)
    return made


def run(command: List[str], data: bytes = b"", cwd: Optional[str] = None, environment: Mapping[str, str] = {}) -> Ended:
    """Runs a program on these bytes, with these variables of the environment too."""
    ended = subprocess.run(command, input=data, stdout=subprocess.PIPE, stderr=subprocess.PIPE, timeout=SECONDS, cwd=cwd,
                           env={**os.environ, **environment})
    return Ended(ended.returncode, ended.stdout, ended.stderr)


@functools.lru_cache(maxsize=None)
def compiled(name: str, *flags: str) -> str:
    """The program of a C file of this folder, over the archive."""
    path = os.path.join(folder(), name)
    ended = run(["cc", "-std=c11", *FLAGS, *flags, "-o", path, os.path.join(HERE, f"{name}.c"), archive()])
    if ended.status:
        raise AssertionError(ended.errors.decode())
    return path


def under_valgrind(command: List[str]) -> List[str]:
    """The command under valgrind, which fails at an error and at a block that is lost; the command alone if there is none."""
    if shutil.which("valgrind") is None:
        return command
    return ["valgrind", "-q", "--error-exitcode=98", "--leak-check=full", "--errors-for-leak-kinds=all", "--show-leak-kinds=all", *command]


def built(name: str) -> str:
    """The path of a proved program."""
    if not program.is_there(name, None):
        raise unittest.SkipTest(f"{name} isn't built: bin/build {name}")
    return program.find(name, None)


@functools.lru_cache(maxsize=None)
def installed() -> Dict[str, str]:
    """The library alone below a prefix, as bin/install puts it: the environment in which pkg-config finds it."""
    from lib.scripts import installing

    prefix = os.path.join(folder(), "prefix")
    installing.put_library(prefix, archive())
    return {"PKG_CONFIG_PATH": os.path.join(prefix, "lib", "pkgconfig")}


def needs_pkg_config() -> None:
    """Leaves a test out if there is no pkg-config."""
    if shutil.which("pkg-config") is None:
        raise unittest.SkipTest("there is no pkg-config: apt-get install pkg-config")


__all__ = ["Ended", "FLAGS", "HEADER", "HERE", "TOP", "archive", "built", "compiled", "folder", "installed", "library", "make_library",
           "needs_pkg_config", "program", "run", "tool", "under_valgrind"]
