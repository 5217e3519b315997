"""The least input of which something still holds: fewer lines first, then a smaller world, then smaller words.

Each step proposes smaller inputs; one that keeps what has to hold takes the input's place. Each part of a trace is a
trace, so most of what is proposed is an input; what isn't doesn't keep it. If fewer words are allocated in what is
proposed, it is also proposed with quotas and capacities that are lower by these words.
"""
import re
from collections import Counter
from typing import Callable, Dict, Iterator, List, NamedTuple, Optional, Set

Lines = List[str]
Holds = Callable[[bytes], bool]
WORLD = (("area",), ("capacity",), ("cons", "block", "run"), ("root",))
PLAIN_QUOTA = 12         # a quota that is tried first


class Parts(NamedTuple):
    """An input in its parts: the two lines of the format and the space, areas, capacities, objects, roots, commands."""
    head: Lines
    areas: Lines
    capacity: Lines
    objects: Lines
    roots: Lines
    commands: Lines

    def data(self) -> bytes:
        lines = [*self.head, *self.areas, *self.capacity, *self.objects, *self.roots, "trace", *self.commands, "end"]
        return "".join(line + "\n" for line in lines).encode("latin-1")


def parts_of(data: bytes) -> Optional[Parts]:
    """The parts of an input; None if it isn't one in form."""
    lines = data.decode("latin-1").split("\n")
    if "trace" not in lines or lines[-2:] != ["end", ""]:
        return None
    at = lines.index("trace")
    areas, capacity, objects, roots = [[line for line in lines[2:at] if line.split(" ")[0] in words] for words in WORLD]
    return Parts(lines[:2], areas, capacity, objects, roots, lines[at + 1:-2])


class Shrinker:
    """Keeps the least input so far in `parts`, also if what has to hold raises an exception."""

    def __init__(self, parts: Parts, holds: Holds):
        self.parts, self.holds = parts, holds
        self.tried: Set[bytes] = set()

    def keeps(self, parts: Parts) -> bool:
        """Takes these parts, or these with lower quotas, if they are new, and what has to hold holds of them."""
        return any(self.takes(one) for one in (parts, *lowered(self.parts, parts)))

    def takes(self, parts: Parts) -> bool:
        """Takes exactly these parts, if what has to hold holds of them."""
        data = parts.data()
        if data in self.tried or parts == self.parts:
            return False
        self.tried.add(data)
        if not self.holds(data):
            return False
        self.parts = parts
        return True

    def first_of(self, proposals: Iterator[Parts]) -> bool:
        """Takes the first of the proposals that holds."""
        return any(self.keeps(parts) for parts in proposals)

    def shrink(self) -> Parts:
        """Steps are made until none of them makes the input smaller."""
        before = None
        while before != self.parts:
            before = self.parts
            self.drop_lines("commands")
            self.drop_lines("roots")
            self.drop_objects()
            for step in (fewer_values, one_area, plain_space, fewer_registers, smaller_words):
                while self.first_of(step(self.parts)):
                    pass
        return self.parts

    def drop_lines(self, name: str) -> None:
        """ddmin: pieces of the lines are left out, first large ones, then single lines."""
        size = len(getattr(self.parts, name))
        while size > 0:
            at = 0
            while at < len(getattr(self.parts, name)):
                lines = getattr(self.parts, name)
                if not self.keeps(self.parts._replace(**{name: lines[:at] + lines[at + size:]})):
                    at += size
            size //= 2


    def drop_objects(self) -> None:
        """The same for the lines of objects, from the last: what refers to an object that is left out is nil."""
        size = len(self.parts.objects)
        while size > 0:
            at = len(self.parts.objects)
            while at > 0:
                at = max(0, at - size)
                self.keeps(without_lines(self.parts, at, at + size))
            size //= 2


# --------------------------------------------------- quotas that follow

def charges(parts: Parts) -> Counter:
    """The words that the objects and the commands of these parts are charged, by the names of areas. A block that grows is
    in the area, if there is one alone."""
    found: Counter = Counter()
    only = parts.areas[0].split(" ")[1] if len(parts.areas) == 1 else None
    for line in parts.objects:
        words = line.split(" ")
        found[words[1]] += {"cons": 2, "block": len(words) - 2, "run": 3 * (len(words) - 2)}[words[0]]
    for line in parts.commands:
        words = line.split(" ")
        if words[0] in ("cons", "list"):
            found[words[2]] += 2 if words[0] == "cons" else 3 * (len(words) - 3)
        elif words[0] in ("make", "grow") and words[-1].isdigit():
            found[words[2] if words[0] == "make" else only] += int(words[-1]) + 1
    return found


def lowered(before: Parts, after: Parts) -> Iterator[Parts]:
    """The later parts with lower quotas, and with lower quotas and capacities, if they charge fewer words."""
    fewer = charges(before) - charges(after)
    areas = [lower_area(line, fewer) for line in after.areas]
    if areas != after.areas:
        yield after._replace(areas=areas)
        if after.capacity:
            yield after._replace(areas=areas, capacity=lower_capacity(after.capacity, sum(fewer.values())))


def lower_area(line: str, fewer: Counter) -> str:
    word, name, kind, quota = line.split(" ")
    return f"{word} {name} {kind} {max(0, int(quota) - fewer[name])}" if fewer[name] else line


def lower_capacity(lines: Lines, fewer: int) -> Lines:
    words = lines[0].split(" ")
    return [" ".join(words[:1] + [str(max(0, int(word) - fewer)) for word in words[1:2]] + words[2:])]


# ------------------------------------------------------------------ the world

def count_of(line: str) -> int:
    """How many objects a line makes."""
    return len(line.split(" ")) - 2 if line.startswith("run ") else 1


def without_lines(parts: Parts, start: int, end: int) -> Parts:
    """Leaves out these lines of objects: what refers to their objects is nil."""
    first = sum(map(count_of, parts.objects[:start]))
    gone = range(first, first + sum(map(count_of, parts.objects[start:end])))
    return without(parts._replace(objects=parts.objects[:start] + parts.objects[end:]), gone)


def without(parts: Parts, gone: range) -> Parts:
    """References to the objects that are gone are nil; those after them have lower numbers."""
    def renumbered(found: "re.Match[str]") -> str:
        number = int(found.group(1))
        return "nil" if number in gone else f"#{number - len(gone) * (number >= gone.stop)}"

    objects, roots = ([re.sub(r"#([0-9]+)", renumbered, line) for line in lines] for lines in (parts.objects, parts.roots))
    return parts._replace(objects=objects, roots=roots)


def fewer_values(parts: Parts) -> Iterator[Parts]:
    """Leaves out values of a block, or items of a list: many at once first, then one."""
    for name, word, fewest in (("objects", "block", 3), ("commands", "list", 4)):
        lines = getattr(parts, name)
        for at, line in enumerate(lines):
            words = line.split(" ")
            count = len(words) - fewest if words[0] == word else 0
            while count > 0:
                for place in range(3, len(words) - count + 1, count):
                    shorter = " ".join(words[:place] + words[place + count:])
                    yield parts._replace(**{name: lines[:at] + [shorter] + lines[at + 1:]})
                count //= 2


def one_area(parts: Parts) -> Iterator[Parts]:
    """Lets everything be in one area."""
    names = [line.split(" ")[1] for line in parts.areas]
    for at, name in enumerate(names if len(names) > 1 else []):
        one = re.compile(r"(?<= )(%s)(?= |$)" % "|".join(map(re.escape, names)))
        objects, commands = ([one.sub(name, line) for line in lines] for lines in (parts.objects, parts.commands))
        yield parts._replace(areas=[parts.areas[at]], objects=objects, commands=commands)
    used = {word for line in parts.objects + parts.commands for word in line.split(" ")}
    yield parts._replace(areas=[line for line, name in zip(parts.areas, names) if name in used] or parts.areas[:1])


def plain_space(parts: Parts) -> Iterator[Parts]:
    """Less memory, fewer levels, a lower rate, quotas of few words, format 1, no capacities."""
    words = parts.head[1].split(" ")
    for place, least in ((4, 1), (2, 32), (5, 0), (1, 5)):
        for number in smaller(words[place], least) if len(words) == 6 else ():
            lower = " ".join(words[:place] + [number] + words[place + 1:])
            yield parts._replace(head=[parts.head[0], lower], capacity=cut_capacity(parts, place, number))
    yield parts._replace(head=["lispm-world 1", parts.head[1]], capacity=[])
    for at, line in enumerate(parts.areas):
        for changed in simpler_area(line):
            yield parts._replace(areas=parts.areas[:at] + [changed] + parts.areas[at + 1:])


def cut_capacity(parts: Parts, place: int, levels: str) -> Lines:
    """The line of capacities for fewer levels."""
    return [" ".join(line.split(" ")[:1 + int(levels)]) for line in parts.capacity] if place == 4 else parts.capacity


def simpler_area(line: str) -> Iterator[str]:
    word, name, kind, quota = line.split(" ")
    for simpler in ("dynamic", "ephemeral")[:("dynamic", "ephemeral", "static").index(kind)]:
        yield f"{word} {name} {simpler} {quota}"
    above = int(quota) - PLAIN_QUOTA
    while above > 0:
        yield f"{word} {name} {kind} {int(quota) - above}"
        above //= 2


# ------------------------------------------------------------------ the words

def places_of_registers(words: Lines) -> List[int]:
    """The places of registers among the words of a command or of a root line."""
    head, last = words[0], len(words)
    if head in ("cons", "list"):
        return [1, *range(3, last)]
    if head in ("move", "car", "cdr", "rplaca", "rplacd", "eq"):
        return [1, 2]
    return {"get": [1, 2], "put": [1, 3], "set": [1], "make": [1], "grow": [1], "size": [1], "root": [1]}.get(head, [])


def fewer_registers(parts: Parts) -> Iterator[Parts]:
    """Numbers the registers by their order in the lines, and has no others."""
    names: Dict[str, str] = {}
    for line in parts.roots + parts.commands:
        words = line.split(" ")
        for place in places_of_registers(words):
            names.setdefault(words[place], str(len(names)))
    space = parts.head[1].split(" ")
    space[3:4] = [str(max(1, len(names)))]
    roots, commands = ([renamed(line, names) for line in lines] for lines in (parts.roots, parts.commands))
    yield parts._replace(head=[parts.head[0], " ".join(space)], roots=roots, commands=commands)


def renamed(line: str, names: Dict[str, str]) -> str:
    words = line.split(" ")
    for place in places_of_registers(words):
        words[place] = names[words[place]]
    return " ".join(words)


def smaller(word: str, least: int = 0) -> Iterator[str]:
    """Simpler spellings in the place of a word: nil and lower numbers, the lowest first."""
    if word.startswith("#"):
        yield "nil"
    elif "," in word:
        yield from word.split(",")
        yield word.rpartition(",")[0]
    elif re.fullmatch(r"-?[0-9]+", word):
        number = abs(int(word))
        lower = [least, least + 1, least + 2, number // 2, number - 1]
        yield from (str(new) for new in sorted(set(lower)) if least <= new < (number if word[0] != "-" else number + 1))


def smaller_words(parts: Parts) -> Iterator[Parts]:
    """Makes one word of one line simpler."""
    for name in ("commands", "roots", "objects", "capacity"):
        lines = getattr(parts, name)
        for at, line in enumerate(lines):
            words = line.split(" ")
            for place in range(1, len(words)):
                for word in smaller(words[place]):
                    changed = " ".join(words[:place] + [word] + words[place + 1:])
                    yield parts._replace(**{name: lines[:at] + [changed] + lines[at + 1:]})


def shrunk(data: bytes, holds: Holds) -> bytes:
    """The least input that is found of which this holds; the input itself if it can't be cut into its parts."""
    parts = parts_of(data)
    return data if parts is None else Shrinker(parts, holds).shrink().data()
