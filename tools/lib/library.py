"""Finds the machine as a C library, and links a shared object from it. It never proves or builds one."""
import argparse
import hashlib
import os
import shutil
import subprocess
import tempfile
from typing import Optional

from . import program, tool

BUILT = os.path.join(program.TOP, "crates", "lispm_c", "out", "liblispm.a")


def add_option(words: argparse.ArgumentParser) -> None:
    """Adds the word that names the library: --library PATH, an archive or a shared object; `none` for the program."""
    words.add_argument("--library", metavar="PATH")


def installed() -> str:
    """The archive that pkg-config knows, or nothing."""
    if shutil.which("pkg-config") is None:
        return ""
    found = subprocess.run(["pkg-config", "--variable=libdir", "lispm"], stdout=subprocess.PIPE, stderr=subprocess.DEVNULL, text=True)
    return os.path.join(found.stdout.strip(), "liblispm.a") if found.returncode == 0 else ""


def find(path: Optional[str] = None) -> Optional[str]:
    """The library: at `path`, else at $LISPM_LIBRARY, else built here, else installed; None if there is none.
    A path that is named must be there."""
    named = path or os.environ.get("LISPM_LIBRARY")
    if named == "none":
        return None
    if named:
        if not os.path.isfile(named):
            raise tool.ToolError(f"no library {named}", tool.MISSING)
        return os.path.abspath(named)
    return next((place for place in (BUILT, installed()) if place and os.path.isfile(place)), None)


def cache() -> str:
    """The folder of what is compiled, which may be removed at any time."""
    home = os.environ.get("XDG_CACHE_HOME") or os.path.join(os.path.expanduser("~"), ".cache")
    return os.path.join(home, "lispm-drivers")


def linked(archive: str) -> Optional[str]:
    """A shared object with all of this archive, linked once and kept; None if there is no C compiler."""
    with open(archive, "rb") as file:
        name = f"liblispm-{hashlib.sha256(file.read()).hexdigest()[:16]}.so"
    path = os.path.join(cache(), name)
    if os.path.exists(path):
        return path
    if shutil.which("cc") is None:
        return None
    os.makedirs(cache(), exist_ok=True)
    with tempfile.TemporaryDirectory(dir=cache()) as folder:
        made = os.path.join(folder, name)
        command = ["cc", "-shared", "-o", made, "-Wl,--whole-archive", archive, "-Wl,--no-whole-archive"]
        ended = subprocess.run(command, stdin=subprocess.DEVNULL, stdout=subprocess.PIPE, stderr=subprocess.STDOUT, text=True)
        if ended.returncode != 0:
            raise tool.ToolError(f"{archive} can't be linked: {ended.stdout.strip()}", tool.MISSING)
        os.replace(made, path)
    return path


def shared(path: Optional[str] = None) -> Optional[str]:
    """A shared object of the library, or None if there is no library here, or nothing to link it with."""
    found = find(path)
    return linked(found) if found is not None and found.endswith(".a") else found
