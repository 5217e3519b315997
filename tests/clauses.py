"""What became of the clauses of public contracts between two versions of the code, for tests/house."""
import re
from collections import Counter
from typing import Dict, Iterator, List, NamedTuple, Sequence, Tuple

HEAD = re.compile(r"(?:^| )(requires|ensures|invariant)(?: (\w+))? \{")
# The sizes that have names in store_word/src/sizes.rt: a clause with the name says the same as one with the number.
SIZES = {"PAGE_WORDS": "256", "PAGE_LEN": "256", "LAST_OFFSET": "255", "REGION_WORDS": "4096", "REGION_LEN": "4096", "REGION_PAGES": "16",
         "MAX_OBJECT_WORDS": "2048", "MAX_MOVED_WORDS": "4096"}


# How the fate of a clause begins, and what the sums call it.
FATES = {"now named": "with another name", "now in": "in a definition of specs/", "changed": "changed",
         "no function": "of functions that are gone", "": "unchanged"}


class Clause(NamedTuple):
    """A clause: its function, as `CRATE FUNCTION`, its kind, its name, and its statement with sizes as numbers."""
    place: str
    kind: str
    name: str
    text: str


def numbered(text: str) -> str:
    """The text with numbers in place of the names of sizes."""
    return re.sub(r"\b[A-Z_]{8,}\b", lambda found: SIZES.get(found[0], found[0]), text)


def clauses_of(place: str, contract: str) -> Iterator[Clause]:
    """The clauses of a contract, whose text is one line."""
    heads = list(HEAD.finditer(contract))
    ends = [head.start() for head in heads[1:]] + [len(contract)]
    for head, end in zip(heads, ends):
        text = re.sub(r"\s*\}(\s*\{\s*\}?)?\s*$", "", contract[head.end():end].strip())
        yield Clause(place, head[1], head[2] or "", numbered(text))


def by_place(contracts: Sequence[Tuple[str, str]]) -> Dict[str, List[Clause]]:
    """For each function, its clauses. Functions of one name in a crate are taken together."""
    found: Dict[str, List[Clause]] = {}
    for place, contract in contracts:
        found.setdefault(place, []).extend(clauses_of(place, contract))
    return found


def fate(clause: Clause, new: Dict[str, List[Clause]], specs: Dict[str, str]) -> str:
    """What became of a clause: "" if it is there word for word under its name."""
    here = new.get(clause.place)
    if here is None:
        return "no function of this name"
    same = [one for one in here if (one.kind, one.text) == (clause.kind, clause.text)]
    if any(one.name == clause.name for one in same):
        return ""
    if same:
        return f"now named {same[0].name or 'nothing'}"
    if clause.text in specs.get(clause.place.split()[0], ""):
        return "now in a definition of specs/"
    return "changed: " + ", ".join(f"{one.kind} {one.name}".strip() for one in here if one.kind == clause.kind)


def table(old: Sequence[Tuple[str, str]], new: Sequence[Tuple[str, str]], specs: Dict[str, str]) -> Iterator[str]:
    """A line for each clause that isn't there word for word under its name, and the sums. `specs` has the text of each crate's specs/."""
    before, after = by_place(old), by_place(new)
    plain = {crate: numbered(re.sub(r"\s+", " ", text)) for crate, text in specs.items()}
    fates = [(clause, fate(clause, after, plain)) for clauses in before.values() for clause in clauses]
    for clause, now in fates:
        if now:
            yield f"{clause.place} {clause.kind} {clause.name}: {now}\n    {clause.text}"
    sums = Counter(next(words for words in FATES if now.startswith(words)) for _, now in fates)
    yield f"{len(fates)} clauses: " + ", ".join(f"{sums[words]} {said}" for words, said in FATES.items())
