"""What a command of a session scanned, and how much is reached, from the machines before and after it.

A command pays for units: `scavenge N` for N, an allocation for the rate times its charge. It scans that many, or all that
there are: those to scan before it and those that it places.
"""
from typing import List

from ..inputs.session import Session
from . import things
from .inside import Machine
from .things import Thing


def charge_of(words: List[str]) -> int:
    """The charge of an allocation, if its arguments give it; 0 for every other command."""
    head = words[0]
    if head == "cons":
        return 2
    if head == "list":
        return 3 * (len(words) - 3)
    return int(words[4]) + 1 if head == "make" else 0


def rate_of(trace: Session) -> int:
    return next(int(line.text.split(" ")[5]) for line in trace.header if line.text.startswith("space "))


def placed(before: Machine, now: Machine) -> int:
    """How many words were placed in live regions."""
    used = {region.number: region.used for region in before.regions}
    return sum(region.used - used.get(region.number, 0) for region in now.regions if not region.is_old)


def scanned(before: Machine, now: Machine, words: List[str], rate: int) -> int:
    """How many units a command scanned."""
    charge = charge_of(words)
    if "running" not in (before.phase, now.phase) or not (charge or words[0] == "scavenge"):
        return 0
    paid = int(words[1]) if words[0] == "scavenge" else rate * charge
    return paid if now.phase == "running" else max(0, min(paid, before.left + placed(before, now)))


def words_of(thing: Thing) -> int:
    return 1 if thing.is_cell else 2 if thing.code is None else 1 + len(thing.fields)


def reached(machine: Machine) -> int:
    """The words of the objects to which registers lead."""
    found = things.of_machine(machine, [str(area.number) for area in machine.areas])
    return sum(words_of(thing) for thing in found.things if thing.is_held)
