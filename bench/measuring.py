"""Measures executions of the built program: seconds, greatest memory, instructions."""
import argparse
import os
import resource
import shutil
import subprocess
import sys
import tempfile
import time
from functools import lru_cache
from typing import List, Optional, Sequence

TOP = os.path.join(os.path.dirname(os.path.abspath(__file__)), "..")
PROGRAM = os.path.join(TOP, "crates", "lispm", "out", "lispm")


def words_of(text: str) -> argparse.ArgumentParser:
    """The argument parser of a benchmark, with this help text."""
    words = argparse.ArgumentParser(description=text, formatter_class=argparse.RawDescriptionHelpFormatter)
    words.add_argument("program", nargs="?", default=PROGRAM)
    return words


def there(program: str) -> str:
    """The path of the program. Ends the script if it doesn't exist."""
    if shutil.which(program) is None:
        raise SystemExit(f"there is no program {os.path.relpath(program)}: bin/build makes lispm")
    return program


def counts() -> bool:
    """Whether instructions can be counted: valgrind is installed."""
    return shutil.which("valgrind") is not None


@lru_cache(maxsize=None)
def gnu_time() -> Optional[str]:
    """The path of GNU time, which other systems call gtime. Without it, a line says that no memory is measured."""
    for path in [shutil.which("time"), shutil.which("gtime")]:
        if path and "GNU" in subprocess.run([path, "--version"], stdout=subprocess.PIPE, stderr=subprocess.STDOUT, text=True).stdout:
            return path
    print("no memory is measured, which needs GNU time: apt-get install time", file=sys.stderr)
    return None


def seconds(command: List[str], text: bytes = b"") -> float:
    """The elapsed seconds of one run on this standard input. Ends the script if the status of the run isn't 0."""
    with tempfile.TemporaryFile() as given:
        given.write(text)
        given.seek(0)
        start = time.perf_counter()
        status = subprocess.run(command, stdin=given, stdout=subprocess.DEVNULL).returncode
        taken = time.perf_counter() - start
    if status != 0:
        raise SystemExit(f"{' '.join(command)} ended with status {status}")
    return taken


def processor_seconds(command: List[str], text: bytes = b"") -> float:
    """The processor seconds of one run. Other work on the machine influences them less than the elapsed time."""
    before = resource.getrusage(resource.RUSAGE_CHILDREN)
    seconds(command, text)
    after = resource.getrusage(resource.RUSAGE_CHILDREN)
    return after.ru_utime + after.ru_stime - before.ru_utime - before.ru_stime


def greatest_memory(command: List[str], text: bytes = b"") -> Optional[int]:
    """The greatest memory of one run in bytes, or None without GNU time.

    The system's figure for a program includes the memory of its parent at the moment when that started it. GNU time has
    less than a megabyte then, but Python has more than most of the measured programs."""
    tool = gnu_time()
    if tool is None:
        return None
    with tempfile.NamedTemporaryFile() as told:
        seconds([tool, "--quiet", "--format=%M", f"--output={told.name}", *command], text)
        return int(told.read()) * 1024


def megabytes(memory: Optional[int]) -> str:
    """A memory in megabytes, empty if it wasn't measured."""
    return "" if memory is None else f"{memory / 1e6:.1f}"


def instructions(command: List[str], text: bytes = b"", options: Sequence[str] = ()) -> int:
    """The instructions of one run, by callgrind with these options."""
    with tempfile.TemporaryDirectory() as folder:
        tool = ["valgrind", "--tool=callgrind", f"--callgrind-out-file={folder}/out", f"--log-file={folder}/log", *options]
        subprocess.run(tool + command, input=text, stdout=subprocess.DEVNULL, check=True)
        for line in open(f"{folder}/log"):
            if "Collected" in line:
                return int(line.split(":")[1].split()[0])
    raise SystemExit("callgrind counted nothing")
