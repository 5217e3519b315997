"""What web/lispm.wasm was made from: the file web/BUILD, and the sums of today's sources."""
import hashlib
import os
import subprocess
from typing import Dict, Iterator, List

from . import crates
from ..program import TOP, WEB

CRATE = "lispm_c"
C_FILES = ["heap.c", "wide.c"]
MODULE, BUILD = os.path.join(WEB, "lispm.wasm"), os.path.join(WEB, "BUILD")


def listed(name: str) -> List[str]:
    """What crates.txt names for a crate: crates of this repository and libraries of the kit."""
    with open(os.path.join(TOP, "crates.txt")) as file:
        for line in file:
            head, _, tail = line.partition("#")[0].partition(":")
            if head.split()[:1] == [name]:
                return tail.split()
    return []


def below(name: str) -> List[str]:
    """The crates of this repository below a crate, each after those that it uses."""
    return crates.below_of(crates.read_crates(), name)[:-1]


def sources(name: str) -> Iterator[str]:
    """What the bytes of the module follow from: the code of the crate and of those below it, and the two C files."""
    for one in [*below(name), name]:
        for folder, _, files in os.walk(os.path.join(TOP, "crates", one, "src")):
            yield from (os.path.join(folder, file) for file in files if file.endswith(".rt"))
    yield from (os.path.join(WEB, file) for file in C_FILES)


def rlib(name: str) -> str:
    """The path of the built library of a crate."""
    return os.path.join(TOP, "crates", name, "out", "rlib", f"{name}.rlib")


def is_built(name: str) -> bool:
    """A library is built, and no source of it is newer."""
    return os.path.isdir(rlib(name)) and not crates.newer_source(name, os.stat(rlib(name)).st_mtime)


def watched() -> List[str]:
    """The folders and files of `sources`, as git takes them."""
    return [*(f"crates/{name}/src" for name in [*below(CRATE), CRATE]), *(f"web/{name}" for name in C_FILES)]


def sum_of(data: bytes) -> str:
    """The sum of some bytes, as `sha256sum` writes it."""
    return hashlib.sha256(data).hexdigest()


def sum_of_file(path: str) -> str:
    """The sum of a file."""
    with open(path, "rb") as file:
        return sum_of(file.read())


def sum_of_sources(name: str = CRATE) -> str:
    """One sum of all sources: of a line for each, its path and its sum."""
    lines = [f"{os.path.relpath(path, TOP)} {sum_of_file(path)}\n" for path in sources(name)]
    return sum_of("".join(sorted(lines)).encode())


def told(command: List[str]) -> str:
    """The first line that a command writes."""
    ended = subprocess.run(command, cwd=TOP, stdout=subprocess.PIPE, stderr=subprocess.DEVNULL, text=True)
    return (ended.stdout.splitlines() or ["unknown"])[0].strip()


def tools() -> Dict[str, str]:
    """The kit and the version of wasm-opt that are here."""
    return {"kit": told(["rt", "version"]), "lowered by": told(["wasm-opt", "--version"])}


def build_text(name: str, module: str) -> str:
    """The text of web/BUILD for a module that was made now."""
    facts = {"commit": told(["git", "log", "-1", "--format=%H %cs"]), **tools(), "sources": f"sha256 {sum_of_sources(name)}",
             "lispm.wasm": f"sha256 {sum_of_file(module)}"}
    return "".join(f"{fact}: {value}\n" for fact, value in facts.items())


def read_build() -> Dict[str, str]:
    """The facts of web/BUILD."""
    with open(BUILD) as file:
        pairs = [line.partition(":") for line in file]
    return {fact: value.strip() for fact, _, value in pairs}
