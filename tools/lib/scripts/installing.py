"""Copies what bin/install and bin/release need, and tests that it is built from the present sources."""
import os
import shutil
from typing import List, Tuple

from . import crates, start
from .. import tool
from .words import PROGRAMS

MODULES = ["__init__.py", "scripts/__init__.py", "scripts/start.py", "scripts/words.py", "scripts/crates.py"]
DOCUMENTS = ["LICENSE-MIT", "LICENSE-APACHE", "CHANGELOG.md"]
TOP = crates.TOP
ARCHIVE = os.path.join(TOP, "crates", "lispm_c", "out", "liblispm.a")


def test_built(name: str) -> None:
    """Refuses if a program isn't built, or is older than a source."""
    if not os.access(crates.program_path(name), os.X_OK):
        raise tool.ToolError(f"{name} isn't built: run bin/build {name}", tool.WRONG)
    older = crates.stale_by(name)
    if older:
        raise tool.ToolError(f"{name} is older than {older}: run bin/build {name}", tool.WRONG)


def test_library() -> None:
    """Refuses if the library isn't built, or is older than a source."""
    if not os.path.exists(ARCHIVE):
        raise tool.ToolError("the C library isn't built: run bin/library", tool.WRONG)
    older = crates.stale_by("lispm_c", ARCHIVE)
    if older:
        raise tool.ToolError(f"the C library is older than {older}: run bin/library", tool.WRONG)


def copies(name: str) -> List[Tuple[str, str]]:
    """What is copied for one program: each file's path in the repository, and its path below PREFIX."""
    return [(f"crates/{name}/out/{name}", f"libexec/lispm/programs/{name}"), (f"bin/{name}", f"libexec/lispm/bin/{name}"),
            (f"bin/{name}.usage", f"libexec/lispm/bin/{name}.usage"), (f"man/{name}.1", f"share/man/man1/{name}.1")]


def put(path: str, text: str) -> None:
    """Writes a file below PREFIX."""
    os.makedirs(os.path.dirname(path), exist_ok=True)
    with open(path, "w") as file:
        file.write(text)


def copy(source: str, path: str) -> None:
    """Copies a file below PREFIX. A process that has opened the former file keeps that one."""
    os.makedirs(os.path.dirname(path), exist_ok=True)
    shutil.copy(os.path.join(crates.TOP, source), path + ".new")
    os.replace(path + ".new", path)


def put_library(prefix: str, archive: str) -> None:
    """Copies the library, its header and its manual page, and writes what pkg-config reads."""
    with open(os.path.join(crates.TOP, "VERSION")) as file:
        version = file.read().strip()
    with open(os.path.join(crates.TOP, "crates/lispm_c/lispm.pc")) as file:
        put(os.path.join(prefix, "lib/pkgconfig/lispm.pc"), file.read().replace("@VERSION@", version))
    copy(archive, os.path.join(prefix, "lib/liblispm.a"))
    copy("crates/lispm_c/lispm.h", os.path.join(prefix, "include/lispm.h"))
    copy("man/lispm.3", os.path.join(prefix, "share/man/man3/lispm.3"))


def link(name: str, prefix: str) -> None:
    """Makes PREFIX/bin/NAME a link to the script."""
    path = os.path.join(prefix, "bin", name)
    os.makedirs(os.path.dirname(path), exist_ok=True)
    if os.path.lexists(path):
        os.remove(path)
    os.symlink(os.path.join("..", "libexec", "lispm", "bin", name), path)


def install(prefix: str) -> None:
    """Copies everything."""
    pairs = [pair for name in PROGRAMS for pair in copies(name)]
    pairs += [(f"tools/lib/{name}", f"libexec/lispm/bin/lib/{name}") for name in MODULES]
    pairs += [(name, f"share/doc/lispm/{name}") for name in DOCUMENTS]
    for source, path in pairs:
        copy(source, os.path.join(prefix, path))
    for name in PROGRAMS:
        put(os.path.join(prefix, "libexec/lispm/identity", name), start.identity(name))
        link(name, prefix)
    put_library(prefix, ARCHIVE)


def test_all() -> None:
    """Refuses if a program or the library isn't built, or is older than a source."""
    for name in PROGRAMS:
        test_built(name)
    test_library()
