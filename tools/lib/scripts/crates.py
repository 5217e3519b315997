"""Which crates a program depends on, whether it is built and up to date, and how long its proof takes."""
import os
from typing import Dict, Iterator, List, Optional, Tuple

# The repository; of an installed copy of this package, the folder libexec/lispm.
TOP = os.path.abspath(os.path.join(os.path.realpath(__file__), *[os.pardir] * 4))
# Files with the seconds of each crate's proof: those that bench/gate --keep measured, and those of the latest build here.
SECONDS = [os.path.join(TOP, "bin", "seconds"), os.path.join(TOP, "bin", "out", "seconds")]
# The assumed seconds of a crate that hasn't been measured yet, and of one in which nothing has changed.
UNKNOWN, UNCHANGED = 60.0, 2.0

Crates = Dict[str, List[str]]


# The word in crates.txt after the name of a crate that is built as a library for C.
LIBRARY = "staticlib"


def rows() -> Iterator[Tuple[List[str], List[str]]]:
    """The rows of crates.txt: a crate's name, with its kind if it has one, and its dependencies."""
    with open(os.path.join(TOP, "crates.txt")) as lines:
        for line in lines:
            name, colon, below = line.partition("#")[0].partition(":")
            if colon:
                yield name.split(), below.split()


def read_crates() -> Crates:
    """The crates of this repository, each with its dependencies among them."""
    listed = {name[0]: below for name, below in rows()}
    return {name: [low for low in below if low in listed] for name, below in listed.items()}


def used_by(name: str) -> List[str]:
    """The dependencies of a crate, those in the kit too."""
    return next(below for row, below in rows() if row[0] == name)


def is_library(name: str) -> bool:
    """The crate is built as a library for C, and not as a program."""
    return any(row[0] == name and LIBRARY in row[1:] for row, _ in rows())


def below_of(crates: Crates, name: str, found: Optional[List[str]] = None) -> List[str]:
    """A crate and all its dependencies, direct or not; each follows its own dependencies."""
    found = [] if found is None else found
    for low in crates[name]:
        if low not in found:
            below_of(crates, low, found)
    if name not in found:
        found.append(name)
    return found


def program_path(name: str) -> str:
    """The path of the built program, or of the archive of a library for C."""
    return os.path.join(TOP, "crates", name, "out", f"lib{name}.a" if is_library(name) else name)


def built_path(name: str, program: str) -> str:
    """The path of what a crate's build makes: the program, or a library."""
    return program_path(name) if name == program else os.path.join(TOP, "crates", name, "out", "rlib")


def sources(name: str) -> Iterator[os.DirEntry]:
    """The source files of one crate."""
    folders = [os.path.join(TOP, "crates", name, part) for part in ("src", "specs", "proofs")]
    while folders:
        folder = folders.pop()
        for entry in os.scandir(folder) if os.path.isdir(folder) else ():
            if entry.is_dir(follow_symlinks=False):
                folders.append(entry.path)
            elif entry.name.endswith((".rt", ".antt")):
                yield entry


def newer_source(name: str, than: float) -> Optional[str]:
    """A source file of a crate that was changed after this time."""
    return next((entry.path for entry in sources(name) if entry.stat().st_mtime > than), None)


def stale_by(program: str, path: str = "") -> Optional[str]:
    """The path, within the repository, of a source that is newer than the program (or than the file at `path`, which is built
    from the same sources)."""
    built = os.stat(path or program_path(program)).st_mtime
    listing = os.path.join(TOP, "crates.txt")
    if os.stat(listing).st_mtime > built:
        return "crates.txt"
    found = (newer_source(name, built) for name in below_of(read_crates(), program))
    return next((os.path.relpath(path, TOP) for path in found if path), None)


def changed(crates: Crates, names: List[str], program: str) -> List[str]:
    """The crates that must be proved: those that aren't built, have a newer source, or depend on a crate that must be proved."""
    found: List[str] = []
    for name in names:
        built = built_path(name, program)
        if set(found) & set(crates[name]) or not os.path.exists(built) or newer_source(name, os.stat(built).st_mtime):
            found.append(name)
    return found


def read_seconds() -> Dict[str, float]:
    """The seconds of each crate's proof, if known; those of the latest build take precedence."""
    seconds: Dict[str, float] = {}
    for path in filter(os.path.isfile, SECONDS):
        with open(path) as lines:
            rows = [line.split() for line in lines]
        seconds.update({row[0]: float(row[1]) for row in rows if len(row) == 2 and row[1].replace(".", "", 1).isdigit()})
    return seconds


def write_seconds(path: str, seconds: Dict[str, float]) -> None:
    """Writes a line for each crate."""
    os.makedirs(os.path.dirname(path), exist_ok=True)
    with open(path, "w") as file:
        file.writelines(f"{name} {took:.0f}\n" for name, took in sorted(seconds.items()))


def expected(names: List[str], proofs: List[str]) -> Dict[str, float]:
    """How many seconds each crate should take, if those in `proofs` must be proved and the others are unchanged."""
    known = read_seconds()
    return {name: known.get(name, UNKNOWN) if name in proofs else UNCHANGED for name in names}


def time_for(crates: Crates, waiting: List[str], seconds: Dict[str, float], running: Dict[str, float]) -> float:
    """How long the running and the waiting crates take together: a waiting crate begins once its dependencies have ended."""
    waiting, ends, now, processors = list(waiting), dict(running), 0.0, os.cpu_count() or 1
    while waiting or ends:
        ready = [name for name in waiting if not set(crates[name]) & {*waiting, *ends}]
        for name in ready[: max(0, processors - len(ends))]:
            waiting.remove(name)
            ends[name] = now + seconds[name]
        name = min(ends, key=lambda it: ends[it])
        now = max(now, ends.pop(name))
    return now


def minutes(seconds: float) -> str:
    """A time as it is printed: whole minutes, at least one."""
    return f"{max(1, round(seconds / 60))} min"


def read_headings() -> Dict[str, List[str]]:
    """The headings of crates.txt, each with the names of its crates: a comment's text up to its colon, and the lines after it."""
    headings: Dict[str, List[str]] = {}
    with open(os.path.join(TOP, "crates.txt")) as lines:
        for line in lines:
            if line.startswith("# ") and ":" in line:
                headings[line[2:].partition(":")[0]] = []
            elif not line.startswith("#") and ":" in line:
                list(headings.values())[-1].append(line.partition(":")[0].split()[0])
    return headings
