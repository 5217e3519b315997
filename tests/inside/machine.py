"""The machine that `lispm_inside` writes after the replies, read by its grammar."""
import re
from typing import Dict, FrozenSet, List, NamedTuple, Optional, Set, Tuple

from words import REGION, Word, read_word
from wrong import Wrong, need

HEAD = "lispm-inside 1"
NUMBER = r"(0|[1-9][0-9]*)"
DIGITS = r"([0-9a-f]{9})"
LEVELS = r"([1-6](?:,[1-6])*)"
PATTERNS = {name: re.compile(pattern) for name, pattern in {
    "head": HEAD,
    "space": f"space {NUMBER} {NUMBER} {NUMBER} {NUMBER} {NUMBER}",
    "capacity": f"capacity((?: {NUMBER})+)",
    "area": f"area {NUMBER} (static|dynamic|ephemeral) quota {NUMBER} charged {NUMBER}",
    "phase": f"phase (?:(idle)|(running|over) (full|{LEVELS}))",
    "left": f"left {NUMBER}",
    "next": f"next (?:none|(register|word) {NUMBER})",
    "moved": f"moved (?:none|{NUMBER})",
    "register": f"register {NUMBER} {DIGITS}( left)?",
    "region": f"region {NUMBER} area {NUMBER} level {NUMBER} (live|old) used {NUMBER} mark {NUMBER}",
    "word": f"word {NUMBER} {DIGITS}( left)?",
    "resident": f"page {NUMBER} resident tag (yes|no)",
    "swapped": f"page {NUMBER} swapped row (?:-|{LEVELS})",
    "calls": f"calls write {NUMBER} read {NUMBER}",
    "end": "end-inside",
}.items()}


class Space(NamedTuple):
    regions: int
    frames: int
    registers: int
    levels: int
    rate: int


class Area(NamedTuple):
    kind: str
    quota: int
    charged: int


class Region(NamedTuple):
    area: int
    level: int
    old: bool
    used: int
    mark: int


class Machine(NamedTuple):
    """All that the lines say. `condemned` is the set of levels that the flip named, or None if it was a full one."""
    space: Space
    capacity: List[int]
    areas: List[Area]
    phase: str
    condemned: Optional[FrozenSet[int]]
    left: int
    next: Optional[Tuple[str, int]]
    moved: Optional[int]
    registers: List[Word]
    registers_left: List[bool]
    regions: Dict[int, Region]
    words: Dict[int, Word]
    words_left: Set[int]
    resident: Dict[int, bool]
    swapped: Dict[int, FrozenSet[int]]
    writes: int
    reads: int

    def region(self, address: int) -> Region:
        """The region of an address, which has to be one that isn't free."""
        found = self.regions.get(address // REGION)
        if found is None:
            raise Wrong(f"address {address} is in a free region")
        return found

    def level(self, address: int) -> int:
        return self.region(address).level

    def is_old(self, address: int) -> bool:
        return self.region(address).old

    def condemns(self, region: Region) -> bool:
        """The flip of the collection that runs condemned such regions."""
        static = self.areas[region.area].kind == "static"
        return self.phase != "idle" and not static and (self.condemned is None or region.level in self.condemned)


class Reader:
    """Takes lines one after another."""

    def __init__(self, lines: List[str]):
        self.lines, self.at = lines, 0

    def take(self, kind: str) -> Optional["re.Match[str]"]:
        """The next line, if it is of this kind."""
        found = PATTERNS[kind].fullmatch(self.lines[self.at]) if self.at < len(self.lines) else None
        self.at += found is not None
        return found

    def one(self, kind: str) -> "re.Match[str]":
        found = self.take(kind)
        if found is None:
            raise Wrong(f"line {self.at + 1} of the machine is no line '{kind}': {self.lines[self.at:self.at + 1]}")
        return found

    def many(self, kind: str) -> List["re.Match[str]"]:
        return list(iter(lambda: self.take(kind), None))


def levels_of(text: Optional[str]) -> FrozenSet[int]:
    """The levels of a word like `1,3`, which ascend."""
    levels = [int(level) for level in text.split(",")] if text else []
    need(levels == sorted(set(levels)), f"levels {text}")
    return frozenset(levels)


def numbers(found: "re.Match[str]") -> List[int]:
    return [int(number) for number in found.groups()]


def rising(name: str, keys: List[int]) -> None:
    need(keys == sorted(set(keys)), f"the lines '{name}' aren't in ascending order")


def read_areas(reader: Reader) -> List[Area]:
    found = reader.many("area")
    need([int(line[1]) for line in found] == list(range(len(found))), "the areas aren't numbered from 0")
    return [Area(line[2], int(line[3]), int(line[4])) for line in found]


def read_regions(reader: Reader) -> Tuple[Dict[int, Region], List["re.Match[str]"]]:
    """The regions, and the lines of their words: each region's after it, one for each address below its used end."""
    regions, words, order = {}, [], []
    for line in iter(lambda: reader.take("region"), None):
        number, area, level, age, used, mark = line.groups()
        regions[int(number)] = Region(int(area), int(level), age == "old", int(used), int(mark))
        order.append(int(number))
        found = reader.many("word")
        wanted = range(REGION * int(number), REGION * int(number) + int(used))
        need([int(word[1]) for word in found] == list(wanted), f"region {number}: its words aren't those that are used")
        words += found
    rising("region", order)
    return regions, words


def read_pages(reader: Reader) -> Tuple[Dict[int, bool], Dict[int, FrozenSet[int]]]:
    """The pages in frames, in the order of use, with their tags; and those on the device with their rows."""
    resident, swapped = reader.many("resident"), reader.many("swapped")
    rising("swapped", [int(line[1]) for line in swapped])
    tags = {int(line[1]): line[2] == "yes" for line in resident}
    rows = {int(line[1]): levels_of(line[2]) for line in swapped}
    need(len(tags) == len(resident) and not tags.keys() & rows.keys(), "a page has two lines")
    return tags, rows


def read_machine(lines: List[str]) -> Machine:
    """The machine that these lines say, from the first, `lispm-inside 1`, to the last, `end-inside`."""
    reader = Reader(lines)
    reader.one("head")
    space = Space(*numbers(reader.one("space")))
    capacity = [int(number) for number in reader.one("capacity")[1].split()]
    areas, phase = read_areas(reader), reader.one("phase")
    condemned = None if phase[1] or phase[3] == "full" else levels_of(phase[4])
    left, unit, moved = int(reader.one("left")[1]), reader.one("next"), reader.one("moved")
    registers = reader.many("register")
    need([int(line[1]) for line in registers] == list(range(space.registers)), "the registers aren't all there, in order")
    regions, words = read_regions(reader)
    tags, rows = read_pages(reader)
    writes, reads = numbers(reader.one("calls"))
    reader.one("end")
    need(reader.at == len(lines), "lines after end-inside")
    return Machine(space, capacity, areas, phase[1] or phase[2], condemned, left,
                   (unit[1], int(unit[2])) if unit[1] else None, int(moved[1]) if moved[1] else None,
                   [read_word(line[2]) for line in registers], [bool(line[3]) for line in registers],
                   regions, {int(line[1]): read_word(line[2]) for line in words},
                   {int(line[1]) for line in words if line[3]}, tags, rows, writes, reads)
