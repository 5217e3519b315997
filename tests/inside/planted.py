"""A test of the checker itself: wrong pictures, made from right ones by one edit, which it has to refuse."""
import re
from typing import Callable, Dict, Iterator, List, NamedTuple, Optional, Tuple

from machine import HEAD, Machine, read_machine
from judge import check_flip, check_since_flip, judge
from moments import (Input, Programs, Shown, answers_of, judge_shown, latest_flip, lines_of, read_input, reply_lines,
                     run, show)
from words import read_word
from wrong import Wrong

Lines = List[str]
Fault = Callable[[Lines], Iterator[Lines]]

LEVELS = b"""lispm-world 2
space 24 32 6 2 1
area old static 100
area young ephemeral 200
capacity 0 0
trace
set 0 5
cons 1 old 0 0
cons 2 young 0 0
rplaca 1 2
cons 0 young 0 0
list 3 young 0 2 0
list 4 young 3 0 0
cdr 5 4
rplacd 5 2
make 5 young 9 3
put 5 0 2
put 5 1 3
grow 5 6
page-out 40
car 0 1
flip 1
scavenge 4
page-out 40
cdr 0 4
scavenge 3
page-out 1
end
"""
FULL = b"""lispm-world 1
space 16 32 8 1 2
area work dynamic 40
area kept static 10
trace
set 0 1
cons 1 work 0 0
cons 1 work 0 0
list 2 work 1 0 1
cons 4 kept 2 0
flip full
car 3 1
scavenge 2
end
"""
OVER = FULL.replace(b"scavenge 2\n", b"scavenge 300\n")
FLIPPED = FULL.replace(b"car 3 1\nscavenge 2\n", b"")


class Scene(NamedTuple):
    """A moment of an input: what it shows, what `stats` and `dump` reply there, and the machine after the flip."""
    given: Input
    replies: Lines
    lines: Lines
    probes: Lines
    flipped: Machine
    pages: int


def scene(programs: Programs, data: bytes) -> Scene:
    given = read_input(data)
    lines = lines_of(run(programs.inside, [], data).output)
    at = lines.index(HEAD)
    answers = answers_of(given, lines[:at])
    flip = latest_flip(answers)
    assert flip is not None
    flipped, pages = show(programs, given.cut(flip + 1)).machine, int(answers[flip][0].split()[1])
    return Scene(given, lines[:at], lines[at:], reply_lines(programs, given.probed())[at:], flipped, pages)


def judge_lines(there: Scene, lines: Lines) -> None:
    """All conditions on the output at this moment."""
    machine = read_machine(lines)
    judge_shown(there.given, Shown(there.replies, machine), False, there.probes)
    check_since_flip(there.flipped, machine)
    if there.given.commands[-1].startswith("flip"):
        check_flip(machine, there.pages)


def judge_alone(there: Scene, lines: Lines) -> None:
    """The conditions on the words themselves."""
    judge(read_machine(lines), False, True)


# ------------------------------------------------------------------- the edits

def change(pattern: str, new: Callable[["re.Match[str]"], Optional[str]]) -> Fault:
    """The edits of one line: each line of the pattern is made another, or is taken out."""
    def fault(lines: Lines) -> Iterator[Lines]:
        for at, line in enumerate(lines):
            found = re.fullmatch(pattern, line)
            if found:
                text = new(found)
                yield lines[:at] + ([] if text is None else [text]) + lines[at + 1:]
    return fault


def more(pattern: str, by: int) -> Fault:
    """The edits that make the number in the middle of a pattern greater by this."""
    return change(pattern, lambda m: f"{m[1]}{int(m[2]) + by}{m[3]}")


def region_out(lines: Lines) -> Iterator[Lines]:
    """A region left out, with its words."""
    starts = [at for at, line in enumerate(lines) if line.startswith("region ")]
    for start in starts:
        end = start + 1
        while lines[end].startswith("word "):
            end += 1
        yield lines[:start] + lines[end:]


def last_word_out(lines: Lines) -> Iterator[Lines]:
    """A used end less by one: the last word of a region left out."""
    for at, line in enumerate(lines):
        found = re.fullmatch(r"(region .* used )([1-9][0-9]*)( .*)", line)
        if found:
            last = at + int(found[2])
            head = f"{found[1]}{int(found[2]) - 1}{found[3]}"
            yield lines[:at] + [head] + lines[at + 1:last] + lines[last + 1:]


def live_words(lines: Lines) -> Iterator[Tuple[int, "re.Match[str]"]]:
    """The places of the words of live regions."""
    live = False
    for at, line in enumerate(lines):
        live = " live " in line if line.startswith("region ") else live
        found = re.fullmatch(r"(word [0-9]+ )([0-9a-f]{9})(.*)", line)
        if found and live:
            yield at, found


def code_out(lines: Lines) -> Iterator[Lines]:
    """The cdr code of a live word dropped."""
    for at, found in live_words(lines):
        bits = int(found[2], 16)
        if bits >> 34:
            yield lines[:at] + [f"{found[1]}{bits % 2**34:09x}{found[3]}"] + lines[at + 1:]


def address_off(lines: Lines) -> Iterator[Lines]:
    """An address of a live word greater by one."""
    for at, found in live_words(lines):
        if read_word(found[2]).address is not None:
            yield lines[:at] + [f"{found[1]}{int(found[2], 16) + 1:09x}{found[3]}"] + lines[at + 1:]


def unit_out(lines: Lines) -> Iterator[Lines]:
    """A unit less to scan, and `left` less by one too: the last of a page, or of the registers."""
    fewer = [f"left {int(line.split()[1]) - 1}" if line.startswith("left ") else line for line in lines]
    for at, line in enumerate(fewer):
        if line.endswith(" left") and not fewer[at + 1].endswith(" left"):
            yield fewer[:at] + [line[:-len(" left")]] + fewer[at + 1:]


def lines_twice(lines: Lines) -> Iterator[Lines]:
    return (lines[:at] + [line] + lines[at:] for at, line in enumerate(lines))


def lines_out(lines: Lines) -> Iterator[Lines]:
    return (lines[:at] + lines[at + 1:] for at in range(len(lines)))


FAULTS: Dict[str, Fault] = {
    "a region left out": region_out,
    "a used end less by one": last_word_out,
    "a code dropped": code_out,
    "an address more by one": address_off,
    "left more by one": more(r"(left )([0-9]+)()", 1),
    "left less by one": more(r"(left )([0-9]+)()", -1),
    "a mark `left` missing": change(r"(.*) left", lambda m: m[1]),
    "a unit less to scan": unit_out,
    "next another": more(r"(next (?:word|register) )([0-9]+)()", 1),
    "next none": change(r"next (word|register).*", lambda m: "next none"),
    "a row missing": change(r"(page [0-9]+ swapped row )[1-6,]+", lambda m: f"{m[1]}-"),
    "a row with a level more": change(r"(page [0-9]+ swapped row )1", lambda m: f"{m[1]}1,2"),
    "a page on the device missing": change(r"page [0-9]+ swapped.*", lambda m: None),
    "a page in a frame missing": change(r"page [0-9]+ resident.*", lambda m: None),
    "an account more by one": more(r"(area .* charged )([0-9]+)()", 1),
    "an account less by one": more(r"(area .* charged )([0-9]+)()", -1),
    "a quota another": more(r"(area .* quota )([0-9]+)( .*)", 1),
    "an old region live": change(r"(region .* )old( .*)", lambda m: f"{m[1]}live{m[2]}"),
    "a live region old": change(r"(region .* )live( .*)", lambda m: f"{m[1]}old{m[2]}"),
    "a flip mark more by one": more(r"(region .* mark )([0-9]+)()", 1),
    "a flip mark less by one": more(r"(region .* mark )([0-9]+)()", -1),
    "an area another": change(r"(region [0-9]+ area )([01])( .*)", lambda m: f"{m[1]}{1 - int(m[2])}{m[3]}"),
    "a level more by one": more(r"(region .* level )([0-9])( .*)", 1),
    "over, and not running": change(r"phase running (.*)", lambda m: f"phase over {m[1]}"),
    "running, and not over": change(r"phase over (.*)", lambda m: f"phase running {m[1]}"),
    "a phase idle": change(r"phase .*", lambda m: "phase idle"),
    "a write more": more(r"(calls write )([0-9]+)( .*)", 1),
    "a read more": more(r"(calls .* read )([0-9]+)()", 1),
    "a line twice": lines_twice,
    "a line left out": lines_out,
}

# These are found by the words alone, without a dump, stats or the flip before.
ALONE = ("a region left out", "left more by one", "left less by one", "next another", "next none", "a row missing",
         "a row with a level more", "an account more by one", "an account less by one", "over, and not running", "a page on the device missing",
         "a line twice")


# ------------------------------------------------------------------- the test

def refused(judge_it: Callable[[Scene, Lines], None], there: Scene, lines: Lines) -> bool:
    try:
        judge_it(there, lines)
    except Wrong:
        return True
    return False


def escaped(judge_it: Callable[[Scene, Lines], None], scenes: List[Scene], fault: Fault) -> Optional[str]:
    """What is wrong with the checker: an edit that it accepts, or an edit that fits no scene; None if nothing is wrong."""
    count = 0
    for number, there in enumerate(scenes):
        for lines in fault(there.lines):
            count += 1
            if lines != there.lines and not refused(judge_it, there, lines):
                changed = sorted(set(lines) - set(there.lines)) or sorted(set(there.lines) - set(lines))
                return f"scene {number}: the checker lets it pass: {changed}"
    return None if count else "no picture has it"


def plant_all(programs: Programs) -> Iterator[Tuple[str, Optional[str]]]:
    """Each test: its name, and what is wrong or None. The right pictures have to pass."""
    scenes = [scene(programs, data) for data in (LEVELS, FULL, OVER, FLIPPED)]
    for number, there in enumerate(scenes):
        yield f"planted: scene {number} as it is", "refused" if refused(judge_lines, there, there.lines) else None
    for name, fault in FAULTS.items():
        yield f"planted: {name}", escaped(judge_lines, scenes, fault)
    for name in ALONE:
        yield f"planted, by the words alone: {name}", escaped(judge_alone, scenes, FAULTS[name])
