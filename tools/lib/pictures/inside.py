"""What lispm_inside writes, as a value: the replies, and the machine after them (docs/FORMATS.md)."""
from typing import Dict, List, NamedTuple, Optional, Tuple

from ..judge import answers

FIRST = "lispm-inside 1"
CODES = ("next", "nil", "normal", "second")
TAGS = ("null", "nil", "list", "block", "header", "HEADER-FORWARD", "GC-FORWARD")
REGION = 4096
PAGE = 256


class Word(NamedTuple):
    """A word of a register or of the memory, and whether it is still to be scanned."""
    bits: int
    is_left: bool

    @property
    def code(self) -> str:
        """The cdr code."""
        return CODES[self.bits >> 34]

    @property
    def tag(self) -> str:
        """`number`, or the name of the minor tag."""
        return "number" if self.bits >> 32 & 3 == 1 else TAGS[self.bits >> 28 & 15]

    @property
    def payload(self) -> int:
        return self.bits & 0xFFFFFFF

    @property
    def number(self) -> int:
        """The number of a word that has one."""
        low = self.bits & 0xFFFFFFFF
        return low - (1 << 32) if low >> 31 else low

    @property
    def is_reference(self) -> bool:
        return self.tag in ("list", "block")

    @property
    def is_forward(self) -> bool:
        return self.tag in ("HEADER-FORWARD", "GC-FORWARD")

    @property
    def address(self) -> Optional[int]:
        """The address that the word leads to, if there is one."""
        return self.payload if self.is_reference or self.is_forward else None


class Area(NamedTuple):
    number: int
    kind: str
    quota: int
    charged: int


class Region(NamedTuple):
    """A region that isn't free, with its used words by address."""
    number: int
    area: int
    level: int
    is_old: bool
    used: int
    mark: int
    words: Dict[int, Word]


class Resident(NamedTuple):
    """A page in a frame; the tag says that an address of level 1 or more may be stored on it."""
    page: int
    is_tagged: bool


class Swapped(NamedTuple):
    """A page on the swap device, and its row: the levels of the addresses on it, `-` for none."""
    page: int
    row: str


class Machine(NamedTuple):
    """The machine after the last command. `next` is (`register`, R), (`word`, A) or None."""
    frames: int
    capacities: List[int]
    areas: List[Area]
    phase: str
    condemned: str
    left: int
    next: Optional[Tuple[str, int]]
    moved: Optional[int]
    registers: List[Word]
    regions: List[Region]
    residents: List[Resident]
    swapped: List[Swapped]
    writes: int
    reads: int

    def word(self, address: int) -> Optional[Word]:
        """The used word at an address."""
        return next((region.words[address] for region in self.regions if address in region.words), None)


def word_of(words: List[str], at: int) -> Word:
    return Word(int(words[at], 16), words[-1] == "left")


def area_of(words: List[str]) -> Area:
    return Area(int(words[1]), words[2], int(words[4]), int(words[6]))


def region_of(words: List[str], own: List[List[str]]) -> Region:
    used = {int(word[1]): word_of(word, 2) for word in own}
    return Region(int(words[1]), int(words[3]), int(words[5]), words[6] == "old", int(words[8]), int(words[10]), used)


def next_of(words: List[str]) -> Optional[Tuple[str, int]]:
    return None if words[1] == "none" else (words[1], int(words[2]))


def regions_of(lines: List[List[str]]) -> List[Region]:
    """Each region line with the word lines that follow it."""
    starts = [at for at, words in enumerate(lines) if words[0] == "region"]
    found = []
    for start in starts:
        end = next((at for at in range(start + 1, len(lines)) if lines[at][0] != "word"), len(lines))
        found.append(region_of(lines[start], lines[start + 1:end]))
    return found


def machine_of(text: List[str]) -> Machine:
    """The machine that these lines describe, from `lispm-inside 1` to `end-inside`."""
    lines = [line.split(" ") for line in text]
    of = {words[0]: words for words in lines}
    pages = [words for words in lines if words[0] == "page"]
    return Machine(
        frames=int(of["space"][2]),
        capacities=[int(word) for word in of["capacity"][1:]],
        areas=[area_of(words) for words in lines if words[0] == "area"],
        phase=of["phase"][1],
        condemned=" ".join(of["phase"][2:]),
        left=int(of["left"][1]),
        next=next_of(of["next"]),
        moved=None if of["moved"][1] == "none" else int(of["moved"][1]),
        registers=[word_of(words, 2) for words in lines if words[0] == "register"],
        regions=regions_of(lines),
        residents=[Resident(int(words[1]), words[4] == "yes") for words in pages if words[2] == "resident"],
        swapped=[Swapped(int(words[1]), words[4]) for words in pages if words[2] == "swapped"],
        writes=int(of["calls"][2]),
        reads=int(of["calls"][4]),
    )


def split(output: bytes) -> Tuple[bytes, Optional[Machine]]:
    """The replies of an output, and the machine after them if the whole input was answered."""
    lines = answers.lines_of(output)
    if FIRST not in lines:
        return output, None
    at = lines.index(FIRST)
    replies = "".join(line + "\n" for line in lines[:at])
    return replies.encode("latin-1"), machine_of(lines[at:])
