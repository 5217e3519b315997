"""The account of an area, computed from its words.

The words of a region are objects, one after another. A header, a pair and a cell show their number of words. A forward
doesn't always: it is followed by the remaining words of the object that moved. So each number of words is tried that the
object at the forward's end allows, and the result is the set of charges of all ways to divide the words into objects.
"""
from typing import Iterator, List, Set, Tuple

from graph import follow, word_at
from machine import Machine, Region
from words import FIXNUM, FORWARDS, GC_FORWARD, HEADER, LIST, NEXT, NIL, NORMAL, REGION, SECOND, STRUCT

Piece = Tuple[int, int]                  # the number of words of what is at an address, and its charge there


def grown_block(fields: int) -> Iterator[Piece]:
    """Husks of a block that has this number of fields now: it had fewer. They remain charged."""
    return ((words, words) for words in range(1, fields + 1))


def moved(machine: Machine, address: int) -> List[Piece]:
    """What moved away from a GC-FORWARD at the address; its charge moved with it."""
    first, last = word_at(machine, address), word_at(machine, follow(machine, address))
    if last.tag == HEADER:
        grew = first.tag in FORWARDS
        return [(words, 0) for words in (range(1, last.fields + 1) if grew else (last.fields + 1,))]
    if first.tag in FORWARDS or last.code != NORMAL:
        return [(1, 0)]
    return [(2, 0)] if word_at(machine, address + 1).code == SECOND else [(1, 0), (2, 0)]


def pieces(machine: Machine, address: int) -> List[Piece]:
    """What may begin at an address."""
    word = machine.words[address]
    if word.tag == HEADER:
        return [(word.fields + 1, word.fields + 1)]
    if word.tag == GC_FORWARD:
        return moved(machine, word.low)
    if word.tag in FORWARDS:
        last = word_at(machine, follow(machine, word.low))
        return list(grown_block(last.fields)) if last.tag == HEADER else [(1, 0)]
    if word.tag not in (FIXNUM, NIL, LIST, STRUCT) or word.code == SECOND:
        return []
    if word.code != NORMAL:
        return [(1, 3)]
    second = machine.words.get(address + 1)
    return [(2, 2 if second.code == SECOND else 3)] if second and second.code in (SECOND, NEXT) else []


def region_charges(machine: Machine, number: int, region: Region) -> Set[int]:
    """The charges that the words of a region may have, each read whole."""
    found: List[Set[int]] = [{0}] + [set() for _ in range(region.used)]
    for at in range(region.used):
        if found[at]:
            for words, charge in pieces(machine, REGION * number + at):
                if at + words <= region.used:
                    found[at + words].update(had + charge for had in found[at])
    return found[region.used]


def area_charges(machine: Machine, area: int) -> Set[int]:
    """The accounts that an area may have by its words."""
    sums = {0}
    for number, region in machine.regions.items():
        if region.area == area:
            charges = region_charges(machine, number, region)
            sums = {had + more for had in sums for more in charges}
    return sums
