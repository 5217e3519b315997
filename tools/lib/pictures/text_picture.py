"""A moment as text that fits a terminal."""
from itertools import zip_longest
from typing import Iterator, List

from . import shown_words
from .inside import Machine, Region
from .moments import Moment

MOST = 20       # words of a region that are shown
COLUMN = 39     # the width of one of two regions side by side


def heading(moment: Moment) -> str:
    if not moment.command:
        return "before the first command"
    more = "" if len(moment.reply) <= 1 else f" and {len(moment.reply) - 1} more lines"
    return f"after command {moment.number}: {moment.command} -> {moment.reply[0] if moment.reply else ''}{more}"


def region_head(region: Region, areas: List[str]) -> str:
    age = "OLD" if region.is_old else "live"
    mark = f", mark {region.mark}" if region.mark else ""
    return f"region {region.number}  {areas[region.area]} level {region.level}  {age}  used {region.used}{mark}"


def word_line(machine: Machine, region: Region, address: int, gone: set) -> str:
    word = region.words[address]
    line = f"{address:>8} {word.code:<6} {shown_words.content(word)}"
    note = shown_words.note(machine, region, address, gone)
    return f"{line:<{COLUMN - len(note) - 1}} {note}" if note else line


def region_lines(machine: Machine, region: Region, areas: List[str]) -> List[str]:
    gone = shown_words.stale(machine, region)
    lines = [region_head(region, areas)]
    addresses = sorted(region.words)
    for address in shown_words.chosen(addresses, MOST):
        left_out = len(addresses) - 2 * (MOST // 2)
        lines.append(f"{'..':>8} {left_out} words more" if address is None else word_line(machine, region, address, gone))
    return lines


def in_two(columns: List[List[str]], width: int) -> Iterator[str]:
    """The columns in pairs, side by side if the width allows and each line fits."""
    fits = width >= 2 * COLUMN + 2 and all(len(line) <= COLUMN for lines in columns for line in lines)
    step = 2 if fits else 1
    for at in range(0, len(columns), step):
        for row in zip_longest(*columns[at:at + step], fillvalue=""):
            yield "  ".join(f"{cell:<{COLUMN}}" for cell in row).rstrip()


def folded(head: str, pieces: List[str], width: int) -> Iterator[str]:
    """A line that begins with its head; further pieces go to lines of their own as the width asks."""
    line = f"{head:<11}"
    for at, piece in enumerate(pieces):
        text = piece + ("; " if at + 1 < len(pieces) else "")
        if len(line) > 11 and len(line) + len(text.rstrip()) > width:
            yield line.rstrip()
            line = " " * 11
        line += text
    yield line.rstrip()


def registers(machine: Machine) -> List[str]:
    shown = [at for at, word in enumerate(machine.registers) if word.tag != "nil"]
    left = sum(word.is_left for word in machine.registers)
    rest = [f"the others nil, {left} of {len(machine.registers)} to scan" if left else "the others nil"]
    return [shown_words.register_text(machine, at) for at in shown] + rest * (len(shown) < len(machine.registers))


def pages(machine: Machine) -> List[str]:
    resident = [f"{page.page}{' tagged' * page.is_tagged}" for page in machine.residents]
    return resident + [f"{machine.frames - len(resident)} frames free"]


def swapped(machine: Machine) -> List[str]:
    out = [shown_words.swapped_text(page) for page in machine.swapped] or ["none"]
    return out + [f"page calls: {machine.writes} written, {machine.reads} read"]


def accounts(machine: Machine, areas: List[str]) -> List[str]:
    return [f"{areas[area.number]} {area.kind}, charged {area.charged} of {area.quota}" for area in machine.areas]


def picture(moment: Moment, areas: List[str], width: int) -> str:
    """The lines of a picture."""
    machine = moment.machine
    lines = [heading(moment), shown_words.phase_text(machine), ""]
    lines += in_two([region_lines(machine, region, areas) for region in machine.regions], width)
    lines += [""] if machine.regions else []
    lines += folded("registers", registers(machine), width)
    lines += folded("areas", accounts(machine, areas), width)
    lines += folded("pages", pages(machine), width)
    lines += folded("on device", swapped(machine), width)
    return "\n".join(lines) + "\n"
