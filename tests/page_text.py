"""What tests/pages checks of the text of pages, without running anything: links, quoted formulas, names, and lengths."""
import os
import re
from typing import Iterator, List, NamedTuple, Optional, Tuple
from urllib.parse import unquote

import prose

LINK = re.compile(r"\[[^\]]*\]\(([^)\s]+)\)")
# Parts of docs/TOUR.md and of the pages of docs/tour.
FRAGMENTS = "examples/tour/"
TOPS, PARTS = re.compile(r"(docs|tools|tests|bin|examples|bench|man|crates|web)/\w"), re.compile(r"(specs|proofs|src|must-fail|more-edits)/\w")
MOST_WORDS = {"README.md": 900}
# The crates' READMEs may have this many lines.
MOST_LINES = 60


class Wrong(NamedTuple):
    """Something that is wrong in a page: the page, the line, and what is wrong."""
    page: str
    line: int
    cause: str


class Quote(NamedTuple):
    """A quoted formula: the page and the line where it begins, the file and the line that the page names, and the lines quoted."""
    page: str
    line: int
    path: str
    at: int
    lines: List[str]


def pages() -> Iterator[str]:
    """All pages, and the READMEs of crates."""
    return (path for group, path in prose.paths() if group in ("pages", "readmes"))


def target_of(page: str, link: str) -> Tuple[str, str]:
    """The path that a link of a page leads to, from the top, and the place in it."""
    path, _, place = link.partition("#")
    return os.path.normpath(os.path.join(os.path.dirname(page), unquote(path))) if path else page, place


# ------------------------------------------------------------------- links

def slug(heading: str) -> str:
    """The name that a heading has as a link's target."""
    plain = re.sub(r"\[([^\]]*)\]\([^)]*\)", r"\1", heading)
    return re.sub(r"[^\w\- ]", "", plain.replace("`", "").strip().lower()).replace(" ", "-")


def slugs(text: str) -> List[str]:
    """The names of all headings and anchors of a page; a heading that occurs again gets a number."""
    names: List[str] = re.findall(r"<a (?:id|name)=\"([^\"]+)\"", text)
    for _, line in prose.page_lines(text):
        if line.startswith("#"):
            name = slug(line.lstrip("#"))
            count = sum(re.fullmatch(re.escape(name) + r"(-\d+)?", other) is not None for other in names)
            names.append(f"{name}-{count}" if count else name)
    return names


def link_is_wrong(page: str, link: str) -> str:
    """Why a link leads nowhere; nothing if it leads somewhere."""
    path, place = target_of(page, link)
    full = os.path.join(prose.TOP, path)
    if not os.path.exists(full):
        return f"no file {path}"
    line = re.fullmatch(r"L(\d+)(?:-L\d+)?", place)
    if line:
        return "" if int(line.group(1)) <= prose.read(path).count("\n") else f"{path} has no line {line.group(1)}"
    return "" if not place or place in slugs(prose.read(path)) else f"{path} has no heading #{place}"


def links(page: str) -> Iterator[Tuple[int, str]]:
    """The links of a page that stay in the repository, each with its line."""
    for number, line in prose.page_lines(prose.read(page)):
        for found in LINK.finditer(re.sub(r"`[^`]*`", "`", line)):
            if not re.match(r"[a-z]+:", found.group(1)):
                yield number, found.group(1)


def wrong_links(page: str) -> Tuple[int, List[Wrong]]:
    """How many links a page has, and those that lead nowhere. A fragment has none: its links are those of the page with it."""
    found = [] if page.startswith(FRAGMENTS) else list(links(page))
    return len(found), [Wrong(page, line, f"{link}: {cause}") for line, link in found if (cause := link_is_wrong(page, link))]


# ------------------------------------------------------------------- quoted formulas

def quotes(page: str) -> Iterator[Quote]:
    """The fenced blocks of a page that follow a link with a line number: they quote the file from that line on."""
    lines, above, opened = prose.read(page).split("\n"), "", 0
    for number, line in enumerate(lines, 1):
        if not line.startswith("```"):
            above = line if line.strip() and not opened else above
        elif not opened:
            opened = number
        else:
            links_above = re.findall(r"\]\(([^)\s]+)#L(\d+)\)", above)
            if links_above:
                path, at = links_above[-1]
                yield Quote(page, opened + 1, target_of(page, path)[0], int(at), lines[opened:number - 1])
            opened, above = 0, ""


def bare(lines: List[str]) -> List[Tuple[int, str]]:
    """The numbered lines that have a formula, without remarks and without the white space around them."""
    kept = ((number, re.sub(r"(^|\s)(--|//).*$", "", line).strip()) for number, line in enumerate(lines, 1))
    return [(number, line) for number, line in kept if line]


def place_of(quote: Quote) -> Optional[int]:
    """The line of the file at which the quoted lines are found in their order; `...` represents any lines of the file."""
    wanted, had = [line for _, line in bare(quote.lines)], bare(prose.read(quote.path).split("\n"))
    for start, (number, line) in enumerate(had):
        if line == wanted[0] and follows(wanted, [text for _, text in had[start:]]):
            return number
    return None


def follows(wanted: List[str], had: List[str]) -> bool:
    """The lines had begin with those wanted."""
    if not wanted:
        return True
    if wanted[0] == "...":
        return any(follows(wanted[1:], had[skipped:]) for skipped in range(len(had)))
    return bool(had) and wanted[0] == had[0] and follows(wanted[1:], had[1:])


def quote_is_wrong(quote: Quote) -> str:
    """Why a quote differs from its file; nothing if it doesn't."""
    if not os.path.isfile(os.path.join(prose.TOP, quote.path)):
        return f"no file {quote.path}"
    place = place_of(quote)
    if place is None:
        return f"{quote.path} has no such lines, word for word"
    moved = f"these lines begin at line {place} of {quote.path}, not at line {quote.at}; `tests/pages --renumber` writes that"
    return "" if place == quote.at else moved


def wrong_quotes(page: str) -> Tuple[int, List[Wrong]]:
    """How many quotes a page has, and those that differ from their files."""
    found = list(quotes(page))
    return len(found), [Wrong(page, quote.line, cause) for quote in found if (cause := quote_is_wrong(quote))]


def renumber(page: str) -> None:
    """Writes the right line number into each link of a page that has a quote below it, if the quote is in the file."""
    lines = prose.read(page).split("\n")
    for quote in quotes(page):
        place = place_of(quote)
        if place and place != quote.at:
            above = max(at for at in range(quote.line - 1) if f"#L{quote.at})" in lines[at])
            lines[above] = f"#L{place})".join(lines[above].rsplit(f"#L{quote.at})", 1))
    with open(os.path.join(prose.TOP, page), "w", encoding="utf-8") as file:
        file.write("\n".join(lines))


# ------------------------------------------------------------------- names, lengths

def names_missing(page: str) -> Tuple[int, List[Wrong]]:
    """How many rows of tables link to files of definitions, and those with a name that none of these files has."""
    rows = [(number, line) for number, line in prose.page_lines(prose.read(page)) if line.startswith("|") and ".antt" in line]
    found, wrong = 0, []
    for number, line in rows:
        paths = [target_of(page, link)[0] for link in LINK.findall(line) if link.partition("#")[0].endswith(".antt")]
        texts = [prose.read(path) for path in paths if os.path.isfile(os.path.join(prose.TOP, path))]
        names = re.findall(r"`([A-Za-z_]\w*)`", re.sub(r"\[[^\]]*\]\(", "(", line))
        found += bool(texts)
        missing = [name for name in names if not any(re.search(rf"(?<![\w]){name}(?![\w])", text) for text in texts)]
        wrong += [Wrong(page, number, f"{name} isn't in {' or '.join(paths)}") for name in missing if texts]
    return found, wrong


def paths_missing(page: str) -> Tuple[int, List[Wrong]]:
    """How many paths a page names between backquotes, and those that don't exist. The ends .antt, .rt and .edit may be left out.
    In a crate's README `specs/F` of `other` is in that crate."""
    count, wrong, folder = 0, [], os.path.dirname(page)
    for number, line in prose.page_lines(prose.read(page)):
        for path, other in re.findall(r"`([\w./-]+)`(?: of `(\w+)`)?", line):
            is_path = TOPS.match(path) or (folder.startswith("crates/") and PARTS.match(path))
            if is_path and not re.search(r"[A-Z]{4}\b(?!\.md)|\.wasm$", path):
                starts = ["", folder, f"crates/{other}"]
                places = [os.path.join(prose.TOP, start, path + end) for start in starts for end in ("", ".antt", ".rt", ".edit")]
                count += 1
                wrong += [] if any(map(os.path.exists, places)) else [Wrong(page, number, f"{path}: no such file")]
    return count, wrong


def functions_of(crate: str) -> str:
    """All sources of a crate, as one text."""
    return "\n".join(prose.read(path) for group, path in prose.paths() if group == "comments" and path.startswith(f"crates/{crate}/"))


def ways_missing(page: str) -> Tuple[int, List[Wrong]]:
    """How many functions the numbered lists of a page name after a crate, as in "`crate`: `f`, `T::g`;", and those not in it."""
    count, wrong, sources = 0, [], {name: "" for name in os.listdir(os.path.join(prose.TOP, "crates"))}
    for number, line in prose.page_lines(prose.read(page)):
        for piece in re.split(r";|: then", line) if re.match(r"\d+\. ", line) else []:
            crate = re.search(r"`(\w+)`:", piece)
            if crate and crate.group(1) in sources:
                name = crate.group(1)
                sources[name] = sources[name] or functions_of(name)
                found = re.findall(r"`(?:\w+::)*(\w+)`", piece[crate.end():])
                count += len(found)
                wrong += [Wrong(page, number, f"{name} has no {it}") for it in found if not re.search(rf"\b(fn|struct) {it}\b", sources[name])]
    return count, wrong


def too_long(page: str) -> Tuple[int, List[Wrong]]:
    """Whether a page has a limit, and whether it is above it."""
    text = prose.read(page)
    if page in MOST_WORDS:
        count = len(text.split())
        return 1, [Wrong(page, 1, f"{count} words, at most {MOST_WORDS[page]}")] if count > MOST_WORDS[page] else []
    if re.fullmatch(r"crates/\w+/README\.md", page):
        count = text.count("\n")
        return 1, [Wrong(page, 1, f"{count} lines, at most {MOST_LINES}")] if count > MOST_LINES else []
    return 0, []


VERSIONS = {
    "CHANGELOG.md": r"(?m)^## (\d+\.\d+\.\d+), ", "CITATION.cff": r"(?m)^version: (\S+)$",
    "man/lispm.1": r"\"lispm (\S+)\"", "man/lispm_bands.1": r"\"lispm (\S+)\"", "man/lispm_inside.1": r"\"lispm (\S+)\"",
}


def wrong_versions() -> Tuple[int, List[Wrong]]:
    """How many files have the version, and those whose first one isn't that of VERSION."""
    version = prose.read("VERSION").strip()
    found = {path: re.search(pattern, prose.read(path)) for path, pattern in VERSIONS.items()}
    wrong = [path for path, one in found.items() if one is None or one.group(1) != version]
    return len(VERSIONS), [Wrong(path, 1, f"the version isn't {version}, as VERSION has it") for path in wrong]


ON_EACH = {"links": wrong_links, "quotes": wrong_quotes, "names": names_missing, "ways": ways_missing, "paths": paths_missing}
ON_ALL = {**ON_EACH, "lengths": too_long}


def check(named: List[str]) -> Tuple[int, List[Wrong]]:
    """How many links, quotes and rows of names these pages have, and what is wrong; of all pages if none is named, and then of lengths and versions too."""
    results = [one(page) for one in (ON_EACH if named else ON_ALL).values() for page in named or pages()]
    results += [] if named else [wrong_versions()]
    return sum(count for count, _ in results), [wrong for _, many in results for wrong in many]
