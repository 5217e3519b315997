"""What tests/house counts of the definitions of specs/ that public contracts cite: their parameters, and the reasons for many."""
import os
import re
from typing import Dict, Iterator, List, NamedTuple, Optional, Tuple

MOST = 5                    # parameters that need no reason
COUNTS = ["six", "seven", "eight", "nine", "ten", "eleven", "twelve", "thirteen", "fourteen", "fifteen", "sixteen", "seventeen", "eighteen"]
# An import, in a contract's file or in one of specs/: a crate, a module, and its names, or a name for the module.
IMPORT = re.compile(r"^ *(?:pub |ghost )?use Rattle\.(\w+)\.specs\.([\w.]+?)(?:\.\{([^}]*)\}| as ([\w']+));?$", re.M)
HEAD = re.compile(r" *(?:(?:abbrev|unfoldable|pub|record|data) )+(?!use |mod )([^\W\d][\w']*)(?= )(.*)")
MODULE = re.compile(r"module \w+ (.*) where")
REASON = re.compile(r"\((\w+) parameters: .+\.\)")
# The name of another definition that an equation applies to views, or to parts of them.
RESTATED = re.compile(r"= ([\w']+)\.([\w']+)(?: |$)")
Names = Dict[str, Tuple[str, str]]


class Definition(NamedTuple):
    """A definition: its file, its line and its name, the number of its parameters, the comment above it, and its equations."""
    path: str
    line: int
    name: str
    parameters: int
    comment: str
    equations: str


class File(NamedTuple):
    """A file of specs/: the crate and module of its imported names, each with its name there, and its definitions."""
    imports: Names
    definitions: Dict[str, Definition]


def names_in(text: str) -> Names:
    """For each name that a file imports, `CRATE.MODULE` and the name there; no name there if it is one for the module."""
    found: Names = {}
    for crate, module, words, whole in IMPORT.findall(text):
        if whole:
            found[whole] = (f"{crate}.{module}", "")
        for word in words.split(","):
            name, _, other = word.strip().partition(" as ")
            found[other or name] = (f"{crate}.{module}", name)
    return found


def is_specs(folder: str) -> bool:
    """Whether a folder has definitions: it is a specs/ or below one, and not a copy that a build has made in out/."""
    return "/specs" in folder and "/out/" not in folder


def cut(text: str, mark: str) -> List[str]:
    """The parts of a text between the marks that are in no brackets."""
    depth, parts = 0, [""]
    for letter in text:
        depth += (letter in "({[") - (letter in ")}]")
        if letter == mark and depth == 0:
            parts.append("")
        else:
            parts[-1] += letter
    return parts


def names_bound(text: str) -> Optional[int]:
    """How many names the groups of `(a b : T) {c : U}` bind; None if the text is something else."""
    groups = re.split(r"(?<=[)}]) *(?=[({])", text.strip())
    heads = [re.match(r"[({]([^(){}:→]*) : ", group) for group in groups]
    if len(cut(text.strip(), " ")) != len(groups) or not all(heads):
        return None
    return sum(len(head.group(1).split()) for head in heads if head)


def parameters_in(head: str) -> int:
    """How many parameters the head of a definition has after its name: those before the colon, and the arguments of its type."""
    before, *after = cut(head, ":")
    arguments = [names_bound(part) for part in cut(":".join(after), "→")[:-1]]
    return (names_bound(before) or 0) + sum(1 if count is None else count for count in arguments)


def indent_of(line: str) -> int:
    return len(line) - len(line.lstrip(" "))


def definition_at(path: str, lines: List[str], at: int, outer: int) -> Optional[Definition]:
    """The definition that begins at a line; its module has `outer` parameters."""
    found = HEAD.match(lines[at])
    if found is None:
        return None
    indent = indent_of(lines[at])
    end = next((n for n in range(at + 1, len(lines)) if not lines[n].strip()), len(lines))
    rest = next((n for n in range(at + 1, end) if indent_of(lines[n]) <= indent or lines[n - 1].endswith(" where")), end)
    above = next((n for n in range(at - 1, -1, -1) if not lines[n].strip().startswith("--")), -1)
    head = re.sub(r"\s+", " ", " ".join([found.group(2), *lines[at + 1:rest]]))
    return Definition(path, at + 1, found.group(1), outer + parameters_in(head), "\n".join(lines[above + 1:at]), "\n".join(lines[rest:end]))


def read_file(path: str) -> File:
    with open(path, encoding="utf-8") as file:
        text = file.read()
    found: Dict[str, Definition] = {}
    lines, outer, inner = text.split("\n"), 0, 0
    for at, line in enumerate(lines):
        module = MODULE.match(line)
        if line and not line.startswith(" "):
            outer, inner = (names_bound(module.group(1)) or 0, 2) if module else (0, 0)
        one = definition_at(path, lines, at, outer) if indent_of(line) == inner else None
        if one:
            found.setdefault(one.name, one)
    return File(names_in(text), found)


def reason_in(one: Definition) -> str:
    """The reason that the comment above a definition gives, if it has the right number."""
    found = REASON.search(one.comment)
    is_right = found and found.group(1).lower() == dict(enumerate(COUNTS, MOST + 1)).get(one.parameters)
    return found.group(0) if found and is_right else ""


class Specs:
    """The files of specs/ of all crates below a folder."""

    def __init__(self, top: str) -> None:
        self.files: Dict[str, File] = {}
        self.homes: Dict[Tuple[str, str], List[str]] = {}
        for folder, _, names in sorted(os.walk(os.path.join(top, "crates"))):
            paths = [os.path.join(folder, name) for name in sorted(names) if name.endswith(".antt") and is_specs(folder)]
            self.files.update((path, read_file(path)) for path in paths)
        for path, file in self.files.items():
            for name in list(file.definitions) + list(file.imports):
                self.homes.setdefault((os.path.basename(path)[:-5], name), []).append(path)

    def found(self, module: str, name: str) -> Optional[Definition]:
        """The definition that `CRATE.MODULE` has under a name: its own one, or one that it imports and exports again. The path of
        a module of a lower crate, which a higher one exports again, has the names of both."""
        *crates, last = module.split(".")
        paths = self.homes.get((last, name), [])
        near = [path for crate in crates[::-1] for path in paths if f"/crates/{crate}/" in path] + paths
        own = next((path for path in near if name in self.files[path].definitions), None)
        if near and name not in self.files[near[0]].definitions:
            other = self.files[near[0]].imports[name]
            return self.found(*other) if other != (module, name) else None
        return self.files[own].definitions[name] if own else None

    def restated(self, one: Definition) -> Optional[Definition]:
        """The definition of the same name that a definition restates, if it does."""
        words = RESTATED.search(one.equations)
        module, _ = self.files[one.path].imports.get(words.group(1), ("", "")) if words else ("", "")
        return self.found(module, one.name) if words and module and words.group(2) == one.name else None

    def cited(self, text: str, contract: str) -> Iterator[Definition]:
        """The definitions that a contract in a file cites, and those that these restate."""
        names = names_in(text)
        for whole, member in re.findall(r"([^\W\d][\w']*)(?:\.([^\W\d][\w']*))?", contract):
            module, name = names.get(whole, ("", ""))
            one = self.found(module, name or member) if module and (name or member) else None
            while one is not None:
                yield one
                one = self.restated(one)

    def reason_of(self, one: Definition) -> str:
        """The reason for the number of a definition's parameters: its own, or that of the definition that it restates."""
        other = self.restated(one)
        return reason_in(one) or (self.reason_of(other) if other else "")
