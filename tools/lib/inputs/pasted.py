"""Sessions as they are found on a page: with the replies beside their commands, indented, and with blank lines.

    set 0 5                  ok        a remark
    dump                     lispm-world 2
                             end-world

Two spaces or more precede a reply, and a remark. A number is a reply only after three spaces, since a command may be
misspelled with two. If a session is indented, each line that isn't indented is a comment.
"""
import re
from typing import Dict, List, NamedTuple, Optional, Tuple

REPLY = (r"ok|t|nil|cons|block \d+ \d+|wrong-type|no-field \d+|exhausted \S+ \d+ \d+ \d+|flipped \d+|busy|more|done|not-done|"
         r"not-flipped|reclaimed|fault|area \S+ \d+ \d+|lispm-world 2|error line \d+: .*?")
ROW = re.compile(rf"(?P<command>\S(?:.*?\S)?)(?:  +(?P<reply>{REPLY})|   +(?P<number>-?\d+))(?:  +(?P<remark>\S.*))?")
LONG_ROW = re.compile(rf"(?P<command>.{{24,}}?) (?P<reply>{REPLY})")
SIZES = re.compile(r"(?P<line>(?:lispm-world|space|area|capacity|cons|block|run|root|trace)\b.*?)(?:  +(?P<remark>\S.*))?")
CONTINUED = "; a reply goes on"
START = re.compile(r"( *)lispm-world [12]\b")


class Found(NamedTuple):
    """The lines of a session, the same number as in the text, and by their numbers the replies beside them."""
    lines: List[str]
    wanted: Dict[int, List[str]]


def without_indent(lines: List[str]) -> List[str]:
    """The lines of an indented session; what isn't indented as much is a comment."""
    start = next((found for found in map(START.match, lines) if found), None)
    indent = start[1] if start else ""
    if not indent:
        return lines
    return [line[len(indent):] if line.startswith(indent) else f"; {line}" if line.strip() else "" for line in lines]


def parted(line: str, has_rows: bool) -> Tuple[str, Optional[str]]:
    """A command, and the reply that is beside it."""
    found = ROW.fullmatch(line) or (LONG_ROW.fullmatch(line) if has_rows else None)
    if found is None:
        return line, None
    return found["command"], found["reply"] or found.groupdict().get("number")


def in_the_trace(line: str, number: int, latest: int, wanted: Dict[int, List[str]]) -> str:
    """A line of the trace without the reply, which is put to those of its command."""
    if line.startswith("  ") and latest in wanted:
        wanted[latest].append(re.split("  +", line.strip())[0])
        return CONTINUED
    command, reply = parted(line, bool(wanted))
    if reply is not None:
        wanted[number] = [reply]
    return command


def unpasted(lines: List[str]) -> Found:
    """The session that these lines show."""
    kept: List[str] = []
    wanted: Dict[int, List[str]] = {}
    has_begun, latest = False, 0
    for number, line in enumerate(without_indent(lines), 1):
        line = line if line.strip(" ") else ";"
        if line.startswith(";"):
            kept.append(line)
            continue
        kept.append(in_the_trace(line, number, latest, wanted) if has_begun else sizes(line))
        latest = number if kept[-1] != CONTINUED else latest
        has_begun = has_begun or kept[-1] == "trace"
    return Found(kept, wanted)


def sizes(line: str) -> str:
    """A line of the world without a remark."""
    found = SIZES.fullmatch(line)
    return found["line"] if found else line
