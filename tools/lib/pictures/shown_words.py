"""Words of the machine as text, in the field's terms."""
from typing import List, Optional, Set

from .inside import Machine, Region, Swapped, Word


def content(word: Word) -> str:
    """What a word holds: a number, nil, an address, or a header's code and length."""
    if word.tag == "number":
        return str(word.number)
    if word.tag == "header":
        return f"header {word.payload // 2048}, {word.payload % 2048} fields"
    if word.is_forward:
        return f"{word.tag} -> {word.payload}"
    if word.is_reference:
        return f"{word.tag} {word.payload}"
    return word.tag


def swapped_text(page: Swapped) -> str:
    """A page on the device, and the levels that the table of references has for it."""
    if page.row == "-":
        return f"{page.page} refers to no level"
    return f"{page.page} refers to level{'s' * (',' in page.row)} {page.row}"


def moved_words(machine: Machine, region: Region, address: int) -> int:
    """How many words the object at a GC-FORWARD had, as far as its copy shows: a block's, a pair's with its own code, else one."""
    target = machine.word(region.words[address].payload)
    if target is not None and target.tag == "header":
        return 1 + target.payload % 2048
    behind = region.words.get(address + 1)
    return 2 if behind is not None and behind.code == "second" else 1


def stale(machine: Machine, region: Region) -> Set[int]:
    """The words of an old region whose object has been copied, except the forwards."""
    found: Set[int] = set()
    for address, word in region.words.items():
        if region.is_old and word.tag == "GC-FORWARD":
            found.update(range(address + 1, address + moved_words(machine, region, address)))
    return found


def note(machine: Machine, region: Region, address: int, gone: Set[int]) -> str:
    """What is to be said of a word beside it."""
    if machine.next == ("word", address):
        return "to scan, next"
    if region.words[address].is_left:
        return "to scan"
    return "stale" if address in gone else ""


def register_text(machine: Machine, number: int) -> str:
    word = machine.registers[number]
    mark = ", next to scan" if machine.next == ("register", number) else ", to scan" if word.is_left else ""
    return f"r{number} {content(word)}{mark}"


def condemned_text(condemned: str) -> str:
    """What a flip condemned, in words."""
    if condemned == "full":
        return "everything"
    return f"levels {condemned}" if "," in condemned else f"level {condemned}"


def phase_text(machine: Machine) -> str:
    """Which collection runs, and how much of it remains."""
    if machine.phase == "idle":
        return "no collection runs"
    what = condemned_text(machine.condemned)
    if machine.phase == "over":
        return f"collection of {what}: finished, nothing to scan; a reclaim may free the old regions"
    where = "" if machine.next is None else f", next is {machine.next[0]} {machine.next[1]}"
    return f"collection of {what}: {machine.left} unit{'s' * (machine.left != 1)} to scan{where}"


def chosen(words: List[int], most: int) -> List[Optional[int]]:
    """The addresses that are shown: all, or the first and the last ones with None in place of those that are left out."""
    if len(words) <= most:
        return list(words)
    half = most // 2
    return [*words[:half], None, *words[len(words) - half:]]
