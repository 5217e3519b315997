"""The verdict on a text of S-expressions (docs/FORMATS.md): whether `compile` takes it, or the first piece that it refuses.

The header is judged line by line as a world's is. The text after it is cut into pieces, and for each piece the reasons are
tested in the order of the table.
"""
import re
from typing import Iterator, List, NamedTuple, Optional, Set

from . import spelling
from .refusal import BAD, Refused
from .verdict import LONGEST, lines_of
from .world_lines import CAPACITY, WorldLines

FIRST = b"sexpr-world 1"
PIECE = re.compile(r"[)\]}]|[^ \n()\[\]{}=]*[(\[{=]|[^ \n()\[\]{}=]+")
CLOSING = {"(": ")", "[": "]", "{": "}"}
MOST_FIELDS, MOST_CODE = 2047, 65535
EXPECTED = ("no register", "register twice", "no area", "bad number", "label twice", "bad form")
A_PIECE = ("a piece is root, end-sexpr, a dot, nil, an integer, #K=, #K#, a closing bracket, or an opening bracket with the name "
           "of an area before it, such as {area}( for a list, {area}[ for a compact one or {area}{{ for a block")
AN_EXPRESSION = "nil, an integer, #K# or a form"


class Piece(NamedTuple):
    """A piece of the text: its line and its column, each from 1."""
    text: str
    line: int
    column: int


class Found(NamedTuple):
    """The verdict: the status, and if it isn't 0 the line, the reason, the column and the width of what is wrong (no
    column if it is a line of the header or the end), and what is expected in its place."""
    status: int
    line: int = 0
    reason: str = ""
    column: int = 0
    width: int = 0
    hint: str = ""

    def error(self) -> Optional[str]:
        return f"error line {self.line}: {self.reason}" if self.status else None


class Form:
    """A form that isn't closed yet: its closing bracket, how many expressions it has, and for a list form the number of expressions
    after its dot, None before the dot. A block form has no code first."""

    def __init__(self, bracket: str):
        self.closing, self.count = CLOSING[bracket], 0
        self.has_code = bracket != "{"
        self.after_dot: Optional[int] = None


class Reader:
    """Takes pieces, as far as they go on a text."""

    def __init__(self, registers: int, areas: List[str]):
        self.registers, self.areas = registers, areas
        self.forms: List[Form] = []
        self.roots: Set[int] = set()
        self.labels: Set[int] = set()
        self.wanted = "root"            # else `register`, `expression`, or `form` after a label
        self.has_ended = False

    def take(self, text: str) -> None:
        """Takes the next piece, or raises Refused."""
        if self.has_ended:
            raise Refused("text after end")
        kind = kind_of(text)
        if kind is None:
            raise Refused("bad token")
        self.take_expression(text, kind) if self.wanted in ("expression", "form") else self.take_between(text, kind)

    def take_between(self, text: str, kind: str) -> None:
        """`root R`, or the end."""
        if self.wanted == "register":
            self.test(kind == "integer", "bad form")
            register = spelling.number(text)
            if register is None or register >= self.registers:
                raise Refused("no register")
            self.test(register not in self.roots, "register twice")
            self.roots.add(register)
            self.wanted = "expression"
            return
        self.test(kind in ("root", "end-sexpr"), "bad form")
        self.has_ended = kind == "end-sexpr"
        self.wanted = "register"

    def test(self, holds: bool, reason: str) -> None:
        if not holds:
            raise Refused(reason)

    def take_expression(self, text: str, kind: str) -> None:
        """A piece within an expression."""
        form = self.forms[-1] if self.forms else None
        if form is not None and not form.has_code:
            self.test(kind == "integer", "bad form")
            self.test(spelling.number(text, 0, MOST_CODE) is not None, "bad number")
            form.has_code = True
            return
        if self.wanted != "form" and form is not None and kind in ("closing", "."):
            self.take_mark(form, text, kind)
            return
        self.test_may_begin(form, kind)
        self.test(kind != "opening" or text[:-1] in self.areas, "no area")
        is_first = self.wanted != "form"
        self.test(not is_first or form is None or form.closing != "}" or form.count < MOST_FIELDS, "too many fields")
        self.begin_expression(form, text, kind, is_first)

    def take_mark(self, form: Form, text: str, kind: str) -> None:
        """A closing bracket or a dot."""
        is_list = form.closing != "}"
        if kind == ".":
            self.test(is_list and form.count > 0 and form.after_dot is None, "bad form")
            form.after_dot = 0
            return
        self.test(text == form.closing and (not is_list or form.count > 0 and form.after_dot != 0), "bad form")
        self.forms.pop()
        self.end_expression()

    def test_may_begin(self, form: Optional[Form], kind: str) -> None:
        """An expression may begin here, by a piece of this kind."""
        if self.wanted == "form":
            self.test(kind == "opening", "bad form")
            return
        self.test(kind in ("nil", "integer", "label", "use", "opening") and (form is None or not form.after_dot), "bad form")

    def begin_expression(self, form: Optional[Form], text: str, kind: str, is_first: bool) -> None:
        """The first piece of an expression, or the bracket after a label."""
        if kind == "label":
            label = int(text[1:-1])
            self.test(label not in self.labels, "label twice")
            self.labels.add(label)
        if kind == "use":
            self.test(int(text[1:-1]) in self.labels, f"no label {text[1:-1]}")
        if form is not None and is_first:
            form.count += 1
            form.after_dot = None if form.after_dot is None else 1
        self.wanted = "form" if kind == "label" else "expression"
        if kind == "opening":
            self.forms.append(Form(text[-1]))
        elif kind != "label":
            self.end_expression()

    def end_expression(self) -> None:
        self.wanted = "expression" if self.forms else "root"

    def hint(self, reason: str) -> str:
        """What is expected in the place of a piece that is refused."""
        hints = {"bad token": A_PIECE.format(area=self.areas[0]), "bad form": self.may_come(),
                 "no register": f"a register, 0 to {self.registers - 1}", "register twice": "a register without a root before",
                 "no area": f"an area: {', '.join(self.areas)}", "bad number": f"a code, 0 to {MOST_CODE}",
                 "too many fields": "a block has at most 2,047 fields", "label twice": "a label that wasn't used",
                 "text after end": "nothing may follow end-sexpr"}
        return hints.get(reason, "a label defined before, such as " + ", ".join(f"#{label}#" for label in sorted(self.labels)[:3])
                         if self.labels else "there is no label before")

    def may_come(self) -> str:
        """What may follow."""
        if self.wanted == "register":
            return "the number of a register"
        if self.wanted == "root":
            return "root with a register and its expression, or end-sexpr"
        if self.wanted == "form":
            return "a form has to follow a label: the name of an area with ( [ or {"
        form = self.forms[-1] if self.forms else None
        if form is None:
            return AN_EXPRESSION
        if not form.has_code:
            return "the code of the block, 0 to 65535"
        if form.after_dot is not None:
            return f"{form.closing}" if form.after_dot else AN_EXPRESSION
        return AN_EXPRESSION + (f", or {form.closing}" if form.closing == "}" else f", a dot, or {form.closing}" if form.count else "")


def kind_of(text: str) -> Optional[str]:
    """Which token a piece is; None if it is none."""
    if text in ("root", "end-sexpr", ".", "nil"):
        return text
    if text in CLOSING.values():
        return "closing"
    if text[-1] in CLOSING:
        return "opening" if spelling.is_name(text[:-1]) else None
    if text[0] == "#" and text[-1] in "=#" and spelling.number(text[1:-1]) is not None:
        return "label" if text[-1] == "=" else "use"
    return "integer" if spelling.integer(text) is not None else None


def pieces(lines: List[str], first: int) -> Iterator[Piece]:
    """The pieces of the lines from line `first` on."""
    for number, line in enumerate(lines[first - 1:], first):
        for found in PIECE.finditer(line):
            yield Piece(found.group(), number, found.start() + 1)


def judge(data: bytes) -> Found:
    """The verdict on a text."""
    lines = lines_of(data)
    world, number = WorldLines(), 0
    try:
        for number, line in enumerate(lines, 1):
            take_header(world, number, line)
            if world.part == CAPACITY:
                break
        else:
            return Found(BAD, len(lines) + 1 if data else 1, "no end" if data else "not a world", hint="end-sexpr has to be the last word")
    except Refused as refused:
        return Found(refused.status, number, refused.reason, hint=header_hint(number))
    return judge_pieces(lines, number + 1, Reader(world.world.space.registers, [area.name for area in world.world.areas]))


def take_header(world: WorldLines, number: int, line: str) -> None:
    """A line of the header, which is that of a world of format 2 except for its first line."""
    if len(line) > LONGEST:
        raise Refused("line too long")
    if number == 1 and line != FIRST.decode():
        raise Refused("not a world")
    world.read(number, "lispm-world 2" if number == 1 else line)


def header_hint(number: int) -> str:
    return f"the first line is {FIRST.decode()}" if number == 1 else "a header is the lines space, area (once to 16 times) and capacity"


def judge_pieces(lines: List[str], first: int, reader: Reader) -> Found:
    """The verdict on what follows the header."""
    for piece in pieces(lines, first):
        try:
            reader.take(piece.text)
        except Refused as refused:
            return Found(BAD, piece.line, refused.reason, piece.column, len(piece.text), reader.hint(refused.reason))
    if not reader.has_ended:
        return Found(BAD, len(lines) + 1, "no end", hint="end-sexpr has to be the last word; " + reader.may_come() + " may follow")
    return Found(0)
