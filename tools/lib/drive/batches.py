"""Inputs over a driver, in batches, and what is found in them.

A batch is one process: it takes its inputs, runs the driver on each, and writes one JSON line: the wrong replies that
it found, the commit of the repository, the checksums of the tools and of the driver, and the range of its inputs. The lines of
many batches, in any order, some perhaps twice, make the tally of a run. A batch ends after some time, and its line has the
last input that it judged; the remaining inputs are given to other batches.
"""
import gc
import json
import os
import subprocess
import time
from typing import Any, Dict, Iterable, List, NamedTuple, Optional, Set

from .. import tool
from ..program import TOP
from . import driving, sources

FIRST_SIZE = 200         # inputs in a batch, if it isn't known how long an input takes
MOST_SIZE = 500
SECONDS = 5.0            # that a batch should last, beside a tenth to start Python
LONGEST = 20.0           # after which a batch begins no further input
COLLECT = 1.0            # seconds between two collections of Python's garbage
FEW = 3                  # batches for each processor at least, so that none waits long for the last

Line = Dict[str, Any]


class Batch(NamedTuple):
    """The inputs with the numbers `first` to `last`."""
    first: int
    last: int

    def __str__(self) -> str:
        return f"{self.first}-{self.last}"

    @property
    def size(self) -> int:
        return self.last - self.first + 1


def batch_of(word: str) -> Batch:
    """The batch that an argument FIRST-LAST names."""
    first, dash, last = word.partition("-")
    if not (dash and first.isdigit() and last.isdigit() and int(first) <= int(last)):
        raise tool.ToolError(f"{word}: a batch is FIRST-LAST")
    return Batch(int(first), int(last))


def split(ranges: List[Batch], seconds: Optional[float], processors: int) -> List[Batch]:
    """The batches of these ranges, if an input takes this many seconds."""
    count = sum(one.size for one in ranges)
    wanted = FIRST_SIZE if not seconds else int(SECONDS / seconds)
    size = max(1, min(wanted, MOST_SIZE, count // (FEW * processors)))
    return [Batch(at, min(at + size - 1, one.last)) for one in ranges for at in range(one.first, one.last + 1, size)]


# ------------------------------------------------------------------- a batch

def commit() -> str:
    """The commit of the repository, or its version if this is no clone."""
    try:
        ended = subprocess.run(["git", "-C", TOP, "rev-parse", "--short=12", "HEAD"], stdout=subprocess.PIPE, stderr=subprocess.DEVNULL)
        found = ended.stdout.decode().strip()
    except OSError:
        found = ""
    return found or tool.read(os.path.join(TOP, "VERSION")).decode().strip()


def what_runs(inputs: sources.Inputs, driver: List[str], program: List[str]) -> Line:
    """What a batch is of, beside its numbers: lines of one run have the same."""
    return {"commit": commit(), "tools": sources.checksum_of_tools(), "driver": driving.checksum([*driver, *program]),
            "inputs": inputs.told()}


def run(batch: Batch, inputs: sources.Inputs, driver: List[str], seconds: float, longest: float = LONGEST) -> Line:
    """Runs a batch; its line has the wrong replies by the numbers of their inputs. It ends when it has lasted too long."""
    faults: List[Line] = []
    relaxed: Dict[str, List[int]] = {}
    program = driving.resolved(driver, seconds)
    told = what_runs(inputs, driver, program)
    began, number, collected = time.monotonic(), batch.first, time.monotonic()
    # Python's own collector finds little here, and takes an eighth of the time if it looks often.
    gc.disable()
    for number in range(batch.first, batch.last + 1):
        if time.monotonic() > collected + COLLECT:
            gc.collect()
            collected = time.monotonic()
        if number > batch.first and time.monotonic() - began > longest:
            number -= 1
            break
        found = driving.judged(program, inputs.data(number), seconds)
        if found.fault is not None:
            faults.append({"number": number, **found.fault._asdict()})
        for word in found.relaxed:
            relaxed.setdefault(word, []).append(number)
    lasted = round(time.monotonic() - began, 3)
    return {"first": batch.first, "last": number, **told, "seconds": lasted, "relaxed": relaxed, "faults": faults}


# ----------------------------------------------------------------- the tally

class Tally(NamedTuple):
    """The batches that were run, the wrong replies by the numbers of their inputs, the inputs that were judged with each of the
    judge's relaxations, the seconds of all batches, and the commit, checksums and inputs of each."""
    done: List[Batch]
    faults: Dict[int, driving.Fault]
    relaxed: Dict[str, Set[int]]
    seconds: List[float]
    what: List[Line]

    def left(self, first: int, last: int) -> List[Batch]:
        """The numbers of the range that no batch has."""
        gaps, at = [], first
        for batch in sorted(self.done):
            if batch.first > at:
                gaps.append(Batch(at, min(batch.first - 1, last)))
            at = max(at, batch.last + 1)
        return gaps + [Batch(at, last)] * (at <= last)

    def seconds_each(self) -> Optional[float]:
        """What an input has taken."""
        count = sum(batch.size for batch in self.done)
        return max(sum(self.seconds) / count, 0.0001) if count else None


PARTS = {"commit": "commits of this repository", "tools": "versions of the tools", "driver": "drivers", "inputs": "kinds of inputs"}


def differing(one: Line, other: Line) -> Optional[str]:
    """In what two lines differ that they should have in common."""
    return next((name for name in PARTS if one.get(name) != other.get(name)), None)


def tally(lines: Iterable[str]) -> Tally:
    """What the lines of batches say. A line that was cut off says nothing: its batch isn't done. Of two lines with the
    same numbers the first counts."""
    found, seen = Tally([], {}, {}, [], []), set()
    for line in lines:
        try:
            told: Line = json.loads(line)
            batch = Batch(told["first"], told["last"])
        except (ValueError, KeyError, TypeError):
            continue
        if batch not in seen:
            seen.add(batch)
            add(found, batch, told)
    return found


def add(found: Tally, batch: Batch, told: Line) -> None:
    """Adds a batch, which has to be of the same as those before it."""
    part = differing(found.what[0], told) if found.what else None
    if part is not None:
        raise tool.ToolError(f"the batches {found.done[0]} and {batch} are of two {PARTS[part]}: {found.what[0].get(part)} and "
                             f"{told.get(part)}; only batches of the same can be counted together")
    found.what.append(told)
    found.done.append(batch)
    found.seconds.append(told.get("seconds", 0.0))
    for word, numbers in told.get("relaxed", {}).items():
        found.relaxed.setdefault(word, set()).update(numbers)
    for fault in told["faults"]:
        found.faults[fault["number"]] = driving.Fault(*(fault[name] for name in driving.Fault._fields))
