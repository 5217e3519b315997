"""The page web/lispm.html, made from its parts: one file that needs no other and fetches nothing.

The parts are web/src, web/draw, web/machine.mjs, the module web/lispm.wasm, the sessions of examples/ and the lessons of its
tour.
"""
import base64
import json
import os
import re
from html import escape
from typing import Dict, Iterator, List, NamedTuple, Optional

from . import showing
from .. import program, tool
from ..tour import lessons

TOP = program.TOP
HERE = os.path.join(TOP, "web")
PAGE = os.path.join(HERE, "lispm.html")
MODULE = os.path.join(HERE, "lispm.wasm")
EXAMPLES = ("first-steps", "identity", "quota", "lists", "growth", "collection", "forwards", "levels", "references", "capacity")
LECTURES = ("die-young", "cache", "leak")


class Own(NamedTuple):
    """A session that a page opens with: its title and its text."""
    title: str
    text: str


def read(*path: str) -> str:
    return tool.read(os.path.join(HERE, *path)).decode("utf-8")


# ------------------------------------------------------------------ scripts

IMPORT = re.compile(r'^import (?:\* as (\w+)|\{([^}]*)\}) from "([^"]+)";\n', re.M)
EXPORT = re.compile(r"^export ((?:async )?function\*?|const|class) (\w+)", re.M)
EXPORTED = re.compile(r"^export \{([^}]*)\};\n?", re.M)


def resolved(path: str, name: str) -> str:
    return os.path.normpath(os.path.join(os.path.dirname(path), name))


def in_order(path: str, seen: List[str]) -> List[str]:
    """A module and those that it imports, each after those that it needs."""
    for _, _, name in IMPORT.findall(read(path)):
        if resolved(path, name) not in seen:
            in_order(resolved(path, name), seen)
    if path not in seen:
        seen.append(path)
    return seen


def as_function(path: str, names: Dict[str, str]) -> str:
    """A module as a function that gives what it exports."""
    text = read(path)
    exports = [name for _, name in EXPORT.findall(text)] + [word.strip() for found in EXPORTED.findall(text) for word in found.split(",")]

    def imported(found: "re.Match[str]") -> str:
        whole, parts, name = found.groups()
        taken = whole or "{ " + ", ".join(part.strip().replace(" as ", ": ") for part in parts.split(",")) + " }"
        return f"const {taken} = {names[resolved(path, name)]};\n"
    body = EXPORTED.sub("", EXPORT.sub(r"\1 \2", IMPORT.sub(imported, text)))
    return f"const {names[path]} = (() => {{\n{body}return {{ {', '.join(exports)} }};\n}})();\n"


def bundle(path: str) -> str:
    """A module with all that it imports as one script."""
    paths = in_order(path, [])
    names = {one: "m" + str(at) for at, one in enumerate(paths)}
    return '"use strict";\n' + "".join(f"// {one}\n{as_function(one, names)}" for one in paths)


def in_script(text: str) -> str:
    """A script that may be an element's text: nothing in it can end the element."""
    return text.replace("</script", "<\\/script").replace("<!--", "<\\!--").replace("import.meta.url", "location.href")


# ------------------------------------------------------------------ sessions

def inline(text: str) -> str:
    """A piece of Markdown as HTML: code, emphasis and links."""
    parts = re.split(r"`([^`]*)`", text)
    found = []
    for at, part in enumerate(parts):
        shown = escape(part, quote=False)
        if at % 2 == 0:
            shown = re.sub(r"\[([^\]]*)\]\([^)]*\)", r"\1", shown)
            shown = re.sub(r"\*([^*]+)\*", r"<em>\1</em>", shown)
        found.append(f"<code>{shown}</code>" if at % 2 else shown)
    return "".join(found)


def blocks(lines: List[str]) -> Iterator[str]:
    """Markdown of lists, indented code and paragraphs as HTML."""
    for block in re.split(r"\n\s*\n", "\n".join(lines).strip("\n")):
        rows = block.split("\n")
        if rows[0].startswith("- "):
            items = re.split(r"\n- ", "\n" + block)[1:]
            yield "<ul>" + "".join(f"<li>{inline(' '.join(item.split()))}</li>" for item in items) + "</ul>"
        elif rows[0].startswith("    "):
            yield "<pre>" + escape("\n".join(row[4:] for row in rows)) + "</pre>"
        elif rows[0].strip():
            yield f"<p>{inline(' '.join(block.split()))}</p>"


def lesson_value(lesson: lessons.Lesson) -> Dict:
    tasks = [tool.read(lesson.task_path(number)).decode() for number in range(1, lessons.TASKS + 1)]
    return {"name": f"lesson/{lesson.number}", "group": "Lessons", "number": lesson.number, "title": f"{lesson.number}. {lesson.name.capitalize()}",
            "text": with_marks(lesson.marked), "see": "".join(blocks(lesson.see.split("\n"))), "tasks": tasks}


def with_marks(marked: showing.Marked) -> str:
    """A session's text with the marks of its quiz."""
    lines = [f"{line:24} ; ?" if at in marked.asked else line for at, line in enumerate(marked.lines, 1)]
    return "".join(f"{line}\n" for line in lines)


def example_value(name: str) -> Dict:
    return {"name": name, "group": "Examples", "title": name.replace("-", " "), "text": tool.read(os.path.join(TOP, "examples", name)).decode()}


def lecture_value(name: str) -> Dict:
    text = tool.read(os.path.join(TOP, "examples", "lectures", name)).decode()
    return {"name": f"lecture/{name}", "group": "For a lecture", "title": name.replace("-", " "), "text": text}


def library(own: Optional[Own]) -> Dict:
    """All sessions of the page, and one more."""
    found = [lesson_value(lesson) for lesson in lessons.all_lessons()]
    found += [example_value(name) for name in EXAMPLES]
    found += [lecture_value(name) for name in LECTURES]
    if own is not None:
        found.insert(0, {"name": "own", "group": "Yours", "title": own.title, "text": own.text})
    return {"sessions": found}


def as_data(value: Dict) -> str:
    """JSON that may be in a page: no text of it can end the element."""
    return json.dumps(value, separators=(",", ":"), ensure_ascii=False).replace("<", "\\u003c")


# ------------------------------------------------------------------ the page

def colours(scheme: str) -> str:
    """The variables of the drawing's colours, from web/draw/svg.mjs."""
    table = re.search(r"const COLOURS = \{(.*?)\};", read("draw", "svg.mjs"), re.S)
    pairs = re.findall(r'(\w+): \["(#\w+)", "(#\w+)"\]', table.group(1) if table else "")
    return ";".join(f"--d-{name}:{dark if scheme == 'dark' else light}" for name, light, dark in pairs)


def definitions() -> str:
    """The arrow heads and the hatching that all drawings of the page share."""
    heads = "".join(f'<marker id="d-head-{kind}" viewBox="0 0 8 8" refX="8" refY="4" markerWidth="8" markerHeight="8" markerUnits="userSpaceOnUse" orient="auto">'
                    f'<path d="M0,0.5 L8,4 L0,7.5 z" class="d-head {kind}"/></marker>' for kind in ("reference", "moved", "root"))
    return ('<pattern id="d-hatching" width="8" height="8" patternUnits="userSpaceOnUse" patternTransform="rotate(45)">'
            '<line x1="0" y1="0" x2="0" y2="8" class="d-old"/></pattern>' + heads)


def made(module: str = MODULE, own: Optional[Own] = None) -> bytes:
    """The page's text."""
    if not os.path.isfile(module):
        raise tool.ToolError(f"no module {os.path.relpath(module)}: web/build makes it", tool.MISSING)
    style = read("src", "page.css").replace("@@LIGHT@@", colours("light")).replace("@@DARK@@", colours("dark"))
    filled = {"STYLE": style, "DEFS": definitions(), "SESSION": ' data-session="own"' if own is not None else "", "LIBRARY": as_data(library(own)),
              "MODULE": base64.b64encode(tool.read(module)).decode(), "WORKER": in_script(bundle("src/worker.mjs")), "SCRIPT": in_script(bundle("src/main.mjs"))}
    pieces = re.split(r"@@(\w+)@@", read("src", "page.html"))
    return "".join(filled[piece] if at % 2 else piece for at, piece in enumerate(pieces)).encode("utf-8")
