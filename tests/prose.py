"""The text that people read in this repository, in passages: paragraphs of pages, cells of tables, help texts, comments, and
the text in pictures. A passage knows its file and its first line. Code isn't part of it: blocks that are
indented or fenced, and what lies between backquotes, which becomes one backquote.
"""
import ast
import fnmatch
import io
import os
import re
import tokenize
from html import unescape
from typing import Callable, Dict, Iterator, List, NamedTuple, Tuple

TOP = os.path.dirname(os.path.dirname(os.path.realpath(__file__)))
SKIPPED = {".git", "__pycache__", ".mypy_cache", "out", "node_modules"}
MADE = {os.path.join("web", "lispm.html")}      # made from files that are read
# Each group of files: what its passages are, and patterns of the paths that belong to it. A path belongs to the first group that has it.
GROUPS: Dict[str, Tuple[str, ...]] = {
    "readmes": ("crates/*/README.md",),
    "comments": ("crates/*/src/*.rt",),
    "remarks": ("crates/*/specs/*.antt", "crates/*/proofs/*.antt"),
    "pages": ("*.md",),
    "pictures": ("*.svg",),
    "help": ("bin/*", "tools/*", "tests/*", "bench/*", "examples/*", "man/*", ".ci/*", "web/*", "library/*"),
}


class Passage(NamedTuple):
    """A text without a break: the path of its file, the number of its first line, and its text, with line feeds."""
    path: str
    line: int
    text: str


Lines = List[Tuple[int, str]]
Reader = Callable[[str, str], Iterator[Passage]]


def joined(path: str, lines: Lines) -> Iterator[Passage]:
    """One passage for each group of numbered lines that follow each other; an empty line ends a passage."""
    held: Lines = []
    for number, line in lines + [(0, "")]:
        if held and (not line.strip() or number != held[-1][0] + 1):
            yield Passage(path, held[0][0], "\n".join(text for _, text in held))
            held = []
        if line.strip():
            held.append((number, line.strip()))


def without_code(text: str) -> str:
    """The text with one backquote for each piece of code or comment, and without the targets of links; line feeds stay."""
    plain = re.sub(r"`[^`]*`|<!--.*?-->", lambda code: "`" + "\n" * code.group().count("\n"), text)
    return re.sub(r"\]\([^)\s]*\)", "]", plain)


def page_lines(text: str) -> Iterator[Tuple[int, str]]:
    """The numbered lines of a page that aren't code. A line of a list begins a passage, so it ends the one before."""
    fenced, after_blank = False, True
    for number, line in enumerate(text.split("\n"), 1):
        if line.lstrip().startswith("```"):
            fenced = not fenced
        elif not fenced and not (line.startswith("    ") and after_blank):
            yield number, line
        after_blank = not line.strip() or (after_blank and line.startswith("    "))


def of_page(path: str, text: str, plain: Callable[[str], str] = without_code) -> Iterator[Passage]:
    """Paragraphs, entries of lists, and cells of tables."""
    lines, held = dict(page_lines(text)), []  # type: Tuple[Dict[int, str], Lines]
    kept = plain("\n".join(lines.get(number, "") for number in range(1, text.count("\n") + 2)))
    for number, line in enumerate(kept.split("\n"), 1):
        is_row, begins = line.startswith("|"), re.match(r" *([-*+]|\d+\.) |#", line)
        if is_row or begins or not line.strip():
            yield from joined(path, held)
            held = []
        if is_row:
            yield from (Passage(path, number, cell.strip()) for cell in line.strip().strip("|").split("|") if re.search(r"\w", cell))
        elif line.strip():
            held.append((number, re.sub(r"^ *([-*+]|\d+\.|#+) +", "", line)))
            if line.startswith("#"):
                yield from joined(path, held)
                held = []
    yield from joined(path, held)


def of_rattle(path: str, text: str) -> Iterator[Passage]:
    """The doc comments and the comments of a source."""
    lines = [(number, found.group(1)) for number, line in enumerate(text.split("\n"), 1)
             if (found := re.search(r"(?:^|\s)//[/!]?(?: (.*)|$)", line)) and found.group(1)]
    return joined(path, [(number, without_code(line)) for number, line in lines])


def of_antt(path: str, text: str) -> Iterator[Passage]:
    """The remarks of a file of definitions or proofs."""
    found = re.finditer(r"(?m)(?:^|\s)-- (.*)$", text)
    lines = [(text.count("\n", 0, one.start(1)) + 1, without_code(one.group(1))) for one in found]
    return joined(path, lines)


def of_python(path: str, text: str) -> Iterator[Passage]:
    """Comments, and strings of two words or more: docstrings, error messages and templates."""
    comments: Lines = []
    for token in tokenize.generate_tokens(io.StringIO(text).readline):
        if token.type == tokenize.COMMENT:
            comments.append((token.start[0], token.string.lstrip("#! ")))
    yield from joined(path, comments)
    for node in ast.walk(ast.parse(text)):
        if isinstance(node, ast.Constant) and isinstance(node.value, str) and re.search(r"[a-z] +[a-z]", node.value):
            lines = enumerate(without_code(node.value).split("\n"), node.lineno)
            yield from joined(path, list(lines))


def of_other(path: str, text: str) -> Iterator[Passage]:
    """Every line of a usage, a manual page or another text, as it is written."""
    return joined(path, list(enumerate(text.split("\n"), 1)))


def of_code(marks: str, quotes: str) -> Reader:
    """A reader of comments, which have this pattern, and of strings of two words or more, in a language with these quotes."""
    strings = "|".join(rf"{quote}(?:[^{quote}\\]|\\.)*{quote}" for quote in quotes)
    pieces = re.compile(rf"(?P<comment>{marks})" + ("|" + strings if strings else ""), re.S)

    def read_pieces(path: str, text: str) -> Iterator[Passage]:
        comments: Lines = []
        for found in pieces.finditer(text):
            line, piece = text.count("\n", 0, found.start()) + 1, found.group()
            if found.group("comment"):
                plain = (re.sub(r"^[\s#!/*;(-]+|\*\)?/?$", "", one) for one in piece.split("\n"))
                comments += [(number, without_code(one)) for number, one in enumerate(plain, line)]
            elif re.search(r"[a-z] +[a-z]", piece):
                yield Passage(path, line, piece[1:-1])
        yield from joined(path, comments)

    return read_pieces


SHELL, LISP = of_code(r"(?<![$\w{])#[^\n]*", "\""), of_code(r";[^\n]*", "\"")
C_LIKE, CSS = of_code(r"/\*.*?\*/|//[^\n]*", "\"'`"), of_code(r"/\*.*?\*/", "")
LUA, OCAML = of_code(r"--[^\n]*", "\""), of_code(r"\(\*.*?\*\)", "\"")


def of_picture(path: str, text: str) -> Iterator[Passage]:
    """The title, the description and each text of a picture."""
    for found in re.finditer(r"<(title|desc|text)\b[^>]*>(.*?)</\1>", text, re.S):
        plain = unescape(re.sub(r"<[^>]*>", " ", found.group(2)))
        yield Passage(path, text.count("\n", 0, found.start()) + 1, plain)


def reader_of(path: str, text: str) -> Reader:
    """What reads the passages of a file with this path and this text."""
    by_end: Dict[str, Reader] = {".c": C_LIKE, ".h": C_LIKE, ".css": CSS, ".js": C_LIKE, ".mjs": C_LIKE, ".lisp": LISP, ".scm": LISP,
                                 ".cpp": C_LIKE, ".java": C_LIKE, ".lua": LUA, ".ml": OCAML,
                                 ".sh": SHELL, ".md": of_page, ".rt": of_rattle, ".antt": of_antt, ".py": of_python, ".svg": of_picture}
    first = text.split("\n", 1)[0] if text.startswith("#!") else ""
    return of_python if "python" in first else SHELL if "sh" in first else by_end.get(os.path.splitext(path)[1], of_other)


def group_of(path: str) -> str:
    """The group that a path belongs to; nothing if it belongs to none."""
    return next((name for name, patterns in GROUPS.items() if any(fnmatch.fnmatch(path, pattern) for pattern in patterns)), "")


def paths() -> Iterator[Tuple[str, str]]:
    """Each path of the repository that belongs to a group, with the group, in the order of the paths."""
    for folder, folders, names in os.walk(TOP):
        folders[:] = sorted(set(folders) - SKIPPED)
        for name in sorted(names):
            path = os.path.relpath(os.path.join(folder, name), TOP)
            if group_of(path) and path not in MADE:
                yield group_of(path), path


def read(path: str) -> str:
    """The text of a file; a file that isn't text has none."""
    try:
        with open(os.path.join(TOP, path), encoding="utf-8") as file:
            return file.read()
    except UnicodeDecodeError:
        return ""


def passages(path: str) -> Iterator[Passage]:
    """The passages of a file."""
    text = read(path)
    return reader_of(path, text)(path, text)
