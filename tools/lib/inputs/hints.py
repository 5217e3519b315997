"""What is expected in the place of what is refused, and what is known to cause refusals."""
import difflib
from typing import Callable, Dict, List

from . import session, verdict
from .columns import BYTE_ORDER_MARK, bad_byte, line_kind, named_byte
from .line_kinds import COMMANDS, WORLD
from .values import World
from .verdict import Verdict
from .world_lines import PART

FIRST_WORDS = {"space expected": "space", "area expected": "area"}


def expected(found: Verdict, lines: List[str]) -> str:
    """What is expected in the place of the wrong piece."""
    line = lines[found.line - 1] if found.line <= len(lines) else ""
    if found.reason.startswith("exhausted "):
        return more_quota(found)
    if found.reason.startswith("no object ") and found.place is None:
        return object_that_is_named(found, lines)
    if found.reason in HINTS:
        return HINTS[found.reason](found, line)
    kind = line_kind(found, line).kind_at(found.place) if found.place is not None else None
    return "expected: " + kind.expected(found.so_far) if kind is not None else ""


def more_quota(found: Verdict) -> str:
    _, area, charged, wanted, _ = found.reason.split(" ")
    return f"a quota of {int(charged) + int(wanted)} for the area {area} would be enough up to here"


def object_that_is_named(found: Verdict, lines: List[str]) -> str:
    """The object line that refers to an object that doesn't exist."""
    name = "#" + found.reason.split(" ")[2]
    named = next(at for at, line in enumerate(lines, 1) if name in line.split(" "))
    return f"line {named} refers to {name}, and {objects_there(found.so_far)}"


def objects_there(world: World) -> str:
    count = len(world.objects)
    if count == 0:
        return "there are no objects"
    return "there is one object, #0" if count == 1 else f"there are {count:,} objects, #0 to #{count - 1}"


def bad_line(_: Verdict, line: str) -> str:
    if line == "":
        return "the line is empty"
    at = bad_byte(line)
    if line[at] != " ":
        return f"{named_byte(line[at])} isn't allowed in a line"
    if at == 0 or at + 1 == len(line):
        return "a space " + ("begins" if at == 0 else "ends") + " the line"
    return "words have one space between them"


def not_a_world(_: Verdict, line: str) -> str:
    return "the first line is lispm-world 1 or lispm-world 2"


def unknown_command(_: Verdict, line: str) -> str:
    near = difflib.get_close_matches(line.split(" ")[0].lower(), COMMANDS, 1)
    if near:
        return f"expected: {COMMANDS[near[0]].shape(near[0])}"
    return "the commands are " + ", ".join(word for word in COMMANDS if word != "end") + ", and end after the last"


def unexpected_line(found: Verdict, line: str) -> str:
    """The lines that are allowed here."""
    head = line.split(" ")[0]
    if head == "end-world":
        return "end-world ends a world file; in an input write trace, then the commands"
    if head in COMMANDS and head not in PART:
        return f"trace is missing before the first command; {allowed_lines(found.so_far)}"
    return allowed_lines(found.so_far)


def allowed_lines(world: World) -> str:
    """How a line may begin after the lines so far, which include an area."""
    objects = ["cons", "block"] + ["run"] * (world.format == 2)
    heads = ["area"] * (world.format == 1 and not world.objects and not world.roots)
    heads += [] if world.roots else objects
    return "allowed here: " + ", ".join(heads + ["root", "trace"])


def capacity_expected(found: Verdict, _: str) -> str:
    levels = found.so_far.space.levels
    return f"a world of format 2 has a line capacity with {levels} number{'s' * (levels > 1)} after its areas"


def wrong_count(found: Verdict, line: str) -> str:
    head = line.split(" ")[0]
    return f"expected: {line_kind(found, line).shape(head)}"


def too_small(found: Verdict, line: str) -> str:
    """How many regions the areas so far and this one need, and which quota of this one would be enough."""
    space = found.so_far.space
    quotas = [area.quota for area in found.so_far.areas]
    taken = sum(-(-quota // 1024) for quota in quotas) + 2 * (space.levels + 1) * (len(quotas) + 1)
    wanted = taken + -(-int(line.split(" ")[3]) // 1024)
    said = f"the areas up to here need {wanted:,} regions, and the space line has {space.regions:,}"
    left = (space.regions - taken) * 1024
    return f"{said}; a quota of {left} is possible here" if left >= 0 else said


def text_after_end(_: Verdict, __: str) -> str:
    return "nothing may follow the line feed of end"


def no_end(found: Verdict, _: str) -> str:
    return "end has to be the last line" + ("" if found.world else ", after trace and the commands")


def first_word(found: Verdict, _: str) -> str:
    head = FIRST_WORDS[found.reason]
    return f"expected: {WORLD[head].shape(head)}"


HINTS: Dict[str, Callable[[Verdict, str], str]] = {
    "bad line": bad_line, "not a world": not_a_world, "unknown command": unknown_command,
    "unexpected line": unexpected_line, "capacity expected": capacity_expected, "wrong count": wrong_count,
    "space too small": too_small, "text after end": text_after_end, "no end": no_end,
    "space expected": first_word, "area expected": first_word,
    "too many areas": lambda _, __: "a world has at most 16 areas",
    "too many fields": lambda _, __: "a block has at most 2,047 fields",
    "too many items": lambda _, __: "a list has at most 1,024 items",
    "line too long": lambda _, line: f"a line has at most {verdict.LONGEST:,} bytes, and this one has {len(line):,}",
    "input too long": lambda _, __: f"an input has at most {verdict.LIMIT:,} bytes",
}


# -------------------------------------------- what the whole file shows

def known_causes(data: bytes, lines: List[str]) -> List[str]:
    """Known reasons for which a file that looks right is refused."""
    return [text for test in (byte_order_mark, carriage_returns, comments) for text in test(data, lines)]


def byte_order_mark(data: bytes, _: List[str]) -> List[str]:
    if data.startswith((b"\xff\xfe", b"\xfe\xff")):
        return ["the file begins with a byte order mark of UTF-16; an input is ASCII"]
    if data.startswith(BYTE_ORDER_MARK.encode("latin-1")):
        return ["the file begins with a byte order mark, three bytes that most editors don't show: save it without"]
    return []


def carriage_returns(_: bytes, lines: List[str]) -> List[str]:
    ending = [at for at, line in enumerate(lines, 1) if line.endswith("\r")]
    if not ending:
        return []
    count = f" ({len(ending):,} of {len(lines):,} lines do)" if len(lines) > 1 else ""
    return [f"line {ending[0]} ends in a carriage return{count}: `tr -d '\\r'` takes them out"]


def comments(data: bytes, lines: List[str]) -> List[str]:
    first = next((at for at, line in enumerate(lines, 1) if line.startswith(";")), None)
    if first is None:
        return []
    plain = verdict.judge(session.parse(data).text())
    state = f"of which lispm writes {plain.error()}" if plain.status else "which is whole"
    return [f"line {first} begins with `;`: a commented session isn't an input; `examples/show --plain NAME` writes its "
            f"input, {state}"]
