"""Judges a machine by its own words: each function is one rule of docs/RULES.md, and refuses what breaks it."""
from typing import Callable, Dict, Iterator, List, Optional, Set, Tuple

from charges import area_charges
from graph import Graph
from machine import Machine, Region
from words import FORWARDS, GC_FORWARD, NULL, PAGE, REGION, Word
from wrong import Wrong, need

HALF = REGION // 2


# ----------------------------------------------------------- sizes and regions

def check_sizes(machine: Machine) -> None:
    space = machine.space
    need(len(machine.capacity) == space.levels, "not one capacity for each level")
    need(1 <= len(machine.areas) <= 16, "no area, or more than 16")
    need(all(number < space.regions for number in machine.regions), "a region that the space hasn't")
    need(len(machine.resident) <= space.frames, "more pages in frames than there are frames")
    pages = [*machine.resident, *machine.swapped]
    need(all(page * PAGE < space.regions * REGION for page in pages), "a page that the space hasn't")


def check_regions(machine: Machine) -> None:
    """The level and the age of each region, and its flip mark."""
    for number, region in machine.regions.items():
        need(region.area < len(machine.areas) and region.used <= REGION, f"region {number}: its area, or its used end")
        most = machine.space.levels if machine.areas[region.area].kind == "ephemeral" else 0
        need(region.level <= most, f"region {number}: level {region.level} in such an area")
        need(region.mark <= region.used, f"region {number}: the flip mark is past the used end")
        need(not region.old or machine.condemns(region), f"region {number} is old, and no flip condemned it")
        need(not region.old or region.mark == 0, f"region {number} is old and has a flip mark")
        need(not (region.mark and machine.condemns(region)), f"region {number} was there at the flip, and isn't old")


def check_chains(machine: Machine) -> None:
    """The regions of a chain but the last are more than half full."""
    last: Set[Tuple[int, int, bool]] = set()
    for number, region in machine.regions.items():
        chain = region.area, region.level, region.old
        if region.used <= HALF:
            need(chain not in last, f"region {number}: two regions of its chain are at most half full")
            last.add(chain)


# ------------------------------------------------------------------- addresses

def survivor_level(machine: Machine, region: Region) -> int:
    """The level to which the flip's survivors of a region go."""
    return 0 if machine.condemned is None or region.level == machine.space.levels else region.level + 1


def check_forward(machine: Machine, address: int, word: Word) -> None:
    """A forward leads within its area: one of a transport from an old region to the class of its survivors, the other within
    its class."""
    here, there = machine.region(address), machine.region(word.low)
    need(here.area == there.area, f"word {address}: a forward to another area")
    if word.tag == GC_FORWARD:
        need(here.old and not there.old, f"word {address}: a GC-FORWARD that doesn't lead from an old region to a live one")
        need(there.level == survivor_level(machine, here), f"word {address}: moved to level {there.level}")
    else:
        need((here.level, here.old) == (there.level, there.old), f"word {address}: a HEADER-FORWARD to another class")


def held_addresses(machine: Machine) -> Iterator[Tuple[str, bool, Word]]:
    """Each register and each word of a live region with an address: what it is, whether it is not yet scanned, the word."""
    for number, (word, left) in enumerate(zip(machine.registers, machine.registers_left)):
        if word.address is not None:
            yield f"register {number}", left, word
    for address, word in machine.words.items():
        if word.address is not None and not machine.is_old(address):
            yield f"word {address}", address in machine.words_left, word


def check_addresses(machine: Machine) -> None:
    """What is held leads to used words; only units not yet scanned may lead to an old region."""
    for name, left, word in held_addresses(machine):
        need(word.low in machine.words, f"{name}: the address of no used word")
        need(left or not machine.is_old(word.low), f"{name}: an old address in a scanned unit")
    for number, word in enumerate(machine.registers):
        need(word.tag not in FORWARDS, f"register {number}: a forward")


def check_forwards(machine: Machine) -> None:
    for address, word in machine.words.items():
        if word.tag in FORWARDS:
            check_forward(machine, address, word)


# -------------------------------------------------------------------- the scan

def next_unit(machine: Machine) -> Optional[Tuple[str, int]]:
    """The next unit: on the page of the latest transport, else a register, else the lowest word."""
    near = [address for address in machine.words_left if address // PAGE == machine.moved]
    if near:
        return "word", min(near)
    if any(machine.registers_left):
        return "register", machine.registers_left.index(True)
    return ("word", min(machine.words_left)) if machine.words_left else None


def check_left(machine: Machine) -> None:
    """The units not yet scanned: the registers from one on, and the last used words of pages in live regions."""
    count = sum(machine.registers_left) + len(machine.words_left)
    need(machine.left == count, f"left {machine.left}, and {count} lines end in `left`")
    need((machine.left > 0) == (machine.phase == "running"), f"left {machine.left} in the phase {machine.phase}")
    need(machine.registers_left == sorted(machine.registers_left), "a register isn't yet scanned, and a later one is")
    for address in machine.words_left:
        need(not machine.is_old(address), f"word {address} ends in `left`, in an old region")
        behind = address + 1
        need(behind % PAGE == 0 or behind not in machine.words or behind in machine.words_left,
             f"word {address} isn't yet scanned, and the next one is")


def check_next(machine: Machine) -> None:
    unit = next_unit(machine)
    need(machine.next == unit, f"next is {machine.next}, and should be {unit}")


# ----------------------------------------------------------------------- pages

def levels_on_pages(machine: Machine) -> Dict[int, Set[int]]:
    """For each page with a used word the levels, 1 or more, of the addresses on it. An address in a free
    region has no level, and is ignored."""
    levels: Dict[int, Set[int]] = {}
    for address, word in machine.words.items():
        found = levels.setdefault(address // PAGE, set())
        if word.address is not None and word.address // REGION in machine.regions:
            found.add(machine.level(word.address))
    return {page: found - {0} for page, found in levels.items()}


def check_places(machine: Machine) -> None:
    """A page with a word that isn't NULL is in a frame or on the device."""
    for address, word in machine.words.items():
        page = address // PAGE
        need(word.tag == NULL or page in machine.resident or page in machine.swapped, f"word {address}: its page is nowhere")


def check_marks(machine: Machine) -> None:
    """A page's tag covers the levels on it; a row is these levels."""
    levels = levels_on_pages(machine)
    for page, tag in machine.resident.items():
        need(tag or not levels.get(page), f"page {page}: no tag, and addresses of levels {levels.get(page)}")
    for page, row in machine.swapped.items():
        need(row == levels.get(page, set()), f"page {page}: row {set(row)}, and addresses of levels {levels.get(page)}")


def check_calls(machine: Machine, failed: bool, freed: bool) -> None:
    """Each write took a page to the device and each read took one back, except one that failed. `freed`: a reclaim may
    have freed pages that are out."""
    net = machine.writes - machine.reads
    wanted = (net - 1, net + 1) if failed else (net,)
    count = len(machine.swapped)
    need(count in wanted or freed and count < max(wanted),
         f"{count} pages on the device, with {machine.writes} writes and {machine.reads} reads")


# ------------------------------------------------------------------- all of it

CHECKS: List[Callable[[Machine], None]] = [
    check_sizes, check_regions, check_chains, check_addresses, check_forwards, check_left, check_next, check_places,
    check_marks]


def check_accounts(machine: Machine, graph: Graph) -> None:
    """The accounts are those that the words have, at least what is reached and at most the quotas."""
    for number, area in enumerate(machine.areas):
        reached = graph.reached(number)
        need(reached <= area.charged <= area.quota, f"area {number}: {area.charged} of {area.quota}, and {reached} are reached")
        need(area.charged in area_charges(machine, number), f"area {number}: charged {area.charged}, and its words aren't")


def judge(machine: Machine, failed: bool, freed: bool) -> Graph:
    """Refuses a machine that can't be; answers its graph. `failed`: a page call failed; `freed`: a collection may have
    ended."""
    for check in CHECKS:
        check(machine)
    check_calls(machine, failed, freed)
    graph = Graph(machine)
    check_accounts(machine, graph)
    return graph


# ------------------------------------------------------------ beside a flip

def base_pages(machine: Machine) -> Set[int]:
    """The pages that a flip finds, by the state that it leaves: used pages of live regions, and if levels were
    condemned only those with a tag or with one of these levels in their row."""
    found: Set[int] = set()
    for number, region in machine.regions.items():
        if not region.old:
            first = number * REGION // PAGE
            found.update(range(first, first + -(-region.used // PAGE)))
    if machine.condemned is None:
        return found
    rows = {page for page, row in machine.swapped.items() if row & machine.condemned}
    return {page for page in found if machine.resident.get(page) or page in rows}


def check_flip(machine: Machine, pages: int) -> None:
    """The machine after a flip that replied `flipped PAGES`: all registers and the words of the base pages aren't yet scanned."""
    found = base_pages(machine)
    need(len(found) == pages, f"flipped {pages}, and these are the base pages: {sorted(found)}")
    on_them = {address for address in machine.words if address // PAGE in found}
    need(machine.words_left == on_them, "the unscanned words aren't those of the base pages")
    need(all(machine.registers_left), "a register is already scanned after the flip")
    need(machine.moved is None, "a page of a transport, just after a flip")
    for number, region in machine.regions.items():
        need(region.old == machine.condemns(region), f"region {number}: condemned, and not old")
        need(region.old or region.mark == region.used, f"region {number}: the flip mark isn't the used end")


def check_same_region(number: int, then: Region, machine: Machine) -> None:
    """A region that was used at the flip: as long as the collection runs an old one doesn't change, and a live one
    only gets more words."""
    now = machine.regions.get(number)
    if then.old and machine.phase == "idle":
        return
    if now is None:
        raise Wrong(f"region {number}: it was used at the flip, and is free")
    need(now[:3] == then[:3], f"region {number}: its area, level or age isn't that of the flip")
    need(now.used == then.used or now.used > then.used and not then.old, f"region {number}: its used end since the flip")


def check_since_flip(flipped: Machine, machine: Machine) -> None:
    """A machine later than its latest flip has the regions and the marks of then. What isn't yet scanned is of a base page, or was
    placed later."""
    base = base_pages(flipped)
    for number, region in flipped.regions.items():
        check_same_region(number, region, machine)
    for number, region in machine.regions.items():
        then = flipped.regions.get(number)
        mark = then.mark if then and not then.old else 0
        need(region.mark == mark, f"region {number}: the flip mark is {region.mark}, and was {mark} at the flip")
    for address in machine.words_left:
        mark = machine.region(address).mark
        need(address % REGION >= mark or address // PAGE in base, f"word {address} isn't yet scanned, and on no base page")
