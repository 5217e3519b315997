"""Runs a driver on an input, and reports the first thing that is wrong with its output or its end.

A driver is any command that reads an input and writes its replies, as docs/ADAPTER.md says. It may also crash, hang or
write half a line: that is reported at the first command without a complete reply, unless an earlier reply is wrong.
"""
import hashlib
import os
import select
import shutil
import signal
import subprocess
import tempfile
import time
from typing import IO, Iterable, List, NamedTuple, NoReturn, Optional

from .. import tool
from ..judge import judging
from ..program import Ended

SECONDS = 10.0               # for one input
MOST_OUTPUT = 1 << 28        # bytes
LOOK = 0.05                  # seconds between two looks at how much was written
ASKED = {"LISPM_DRIVER": "program"}           # the variable with which a driver's script only writes its program's command
MOST_READ = 1 << 24          # bytes of a file that its checksum is made of, at each end
UNFINISHED = ("missing", "cut", "status")      # what the judge finds if a run broke off


class Fault(NamedTuple):
    """What is wrong: its kind, the line of the input, the command there, and what was expected."""
    kind: str
    line: int
    command: str
    cause: str = ""

    @property
    def way(self) -> str:
        """What stays the same when an input is shrunk: the kind, and the command's first word."""
        return f"{self.kind}: {self.command.partition(' ')[0]}"

    def __str__(self) -> str:
        return f"line {self.line}, {self.command}: {self.cause or self.kind}"


# ---------------------------------------------------------------------- a run

def find(driver: List[str]) -> List[str]:
    """The driver's words, the first of them a program that is there."""
    if not driver:
        raise tool.ToolError("a driver must follow --")
    path = shutil.which(driver[0])
    if path is None:
        raise tool.ToolError(f"{driver[0]}: no such program")
    return [os.path.abspath(path), *driver[1:]]


def resolved(driver: List[str], seconds: float = SECONDS) -> List[str]:
    """The command that a driver's script ends in. A script may write it, a word a line, if the environment has
    LISPM_DRIVER=program; any other driver reads an empty input then, and is its own command."""
    try:
        ended = subprocess.run(driver, stdin=subprocess.DEVNULL, stdout=subprocess.PIPE, stderr=subprocess.DEVNULL, timeout=seconds,
                               env={**os.environ, **ASKED}, start_new_session=True)
    except (OSError, subprocess.TimeoutExpired):
        return driver
    words = ended.stdout.decode("utf-8", "surrogateescape").split("\n")[:-1]
    is_program = ended.returncode == 0 and words and os.path.isabs(words[0]) and os.access(words[0], os.X_OK)
    return words if is_program and os.path.isfile(words[0]) else driver


def checksum(words: List[str]) -> str:
    """The checksum of words, and of each file among them."""
    told = hashlib.sha256()
    for word in words:
        told.update(word.encode("utf-8", "surrogateescape") + b"\n")
        if os.path.isfile(word):
            with open(word, "rb") as file:
                told.update(hashlib.sha256(file.read(MOST_READ)).digest())
                told.update(b"%d" % os.path.getsize(word))
    return told.hexdigest()[:16]


def run(driver: List[str], data: bytes, seconds: float = SECONDS) -> Ended:
    """Runs a driver on an input for at most this many seconds; then it is ended with all the processes that it started. What it reads and
    writes are files in memory: over a pipe each piece that it writes would wake this process."""
    with file_in_memory() as source, file_in_memory() as sink:
        source.write(data)
        source.seek(0)
        process = start(driver, source, sink)
        try:
            status, is_late = wait_until(process, sink, time.monotonic() + seconds), False
        except subprocess.TimeoutExpired:
            status, is_late = -signal.SIGKILL, True
        finally:
            end(process)
        sink.seek(0)
        return Ended(status, sink.read(MOST_OUTPUT), is_late)


def file_in_memory() -> IO[bytes]:
    """A file without a name."""
    return os.fdopen(os.memfd_create("input"), "w+b") if hasattr(os, "memfd_create") else tempfile.TemporaryFile()


def start(driver: List[str], source: IO[bytes], sink: IO[bytes]) -> "subprocess.Popen[bytes]":
    try:
        return subprocess.Popen(driver, stdin=source, stdout=sink, stderr=subprocess.DEVNULL, start_new_session=True)
    except OSError as error:
        raise tool.ToolError(f"{driver[0]}: {error.strerror}") from None


def wait_until(process: "subprocess.Popen[bytes]", sink: IO[bytes], deadline: float) -> int:
    """The status of a process; late at the deadline, or if it writes too much."""
    try:
        watched = os.pidfd_open(process.pid)
    except (AttributeError, OSError):               # not on this system: `wait` looks now and then
        return process.wait(max(0.0, deadline - time.monotonic()))
    try:
        while not select.select([watched], [], [], max(0.0, min(LOOK, deadline - time.monotonic())))[0]:
            if time.monotonic() >= deadline or os.fstat(sink.fileno()).st_size > MOST_OUTPUT:
                raise subprocess.TimeoutExpired("", 0)
    finally:
        os.close(watched)
    return process.wait()


def end(process: "subprocess.Popen[bytes]") -> None:
    """Ends a driver that still runs, with the processes that it started."""
    if process.poll() is None:
        os.killpg(process.pid, signal.SIGKILL)
        process.wait()
    if process.stdout is not None:
        process.stdout.close()


def end_on_signal() -> None:
    """A signal to end lets the driver be ended, too."""
    def stop(number: int, frame: object) -> NoReturn:
        raise SystemExit(128 + number)
    signal.signal(signal.SIGTERM, stop)
    signal.signal(signal.SIGHUP, stop)


# ------------------------------------------------------------- what is wrong

def signal_of(status: int) -> Optional[str]:
    """The name of the signal that ended a run, as the system or a shell reports it."""
    number = -status if status < 0 else status - 128
    try:
        return signal.Signals(number).name
    except ValueError:
        return None


def ending(ended: Ended) -> Optional[str]:
    """How a run ended, if not as a run of a driver should."""
    name = signal_of(ended.status)
    if ended.timed_out:
        return "timed out"
    if name is not None:
        return f"died {name}"
    if ended.status not in (0, 2, 4):
        return f"status {ended.status}"
    return None if ended.output[-1:] in (b"", b"\n") else "cut line"


class Found(NamedTuple):
    """The first thing that is wrong with a run on an input, None if it is right; and what the judge relaxed."""
    fault: Optional[Fault]
    relaxed: Iterable[str]


def found_in(data: bytes, ended: Ended) -> Found:
    """The judge's verdict on a run on an input."""
    judged = judging.judge(data, ended.output, ended.status)
    return Found(None if judged.first is None else fault_at(judged.first, ended), judged.relaxed)


def fault_of(data: bytes, ended: Ended) -> Optional[Fault]:
    """The first thing that is wrong with a run on an input; None if it is right."""
    return found_in(data, ended).fault


def fault_at(first: judging.First, ended: Ended) -> Fault:
    """What is reported if this is the first wrong reply."""
    kind = ending(ended)
    if kind is not None and first.kind in UNFINISHED:
        return Fault(kind, first.line, first.command)
    row = f"line {first.row} of the reply: " if first.row is not None else ""
    cause = f"{row}expected {short(first.expected)}, got {short(first.got)}"
    return Fault(first.kind, first.line, first.command, cause)


def short(text: str) -> str:
    return text if len(text) <= 80 else text[:76] + " ..."


def judged(driver: List[str], data: bytes, seconds: float = SECONDS) -> Found:
    """Runs a driver on an input, and judges it."""
    return found_in(data, run(driver, data, seconds))


def check(driver: List[str], data: bytes, seconds: float = SECONDS) -> Optional[Fault]:
    """Runs a driver on an input, and returns what is wrong."""
    return judged(driver, data, seconds).fault
