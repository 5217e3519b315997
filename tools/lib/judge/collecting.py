"""Flips, reclaims and silent steps of a hypothesis."""
from typing import TYPE_CHECKING, Callable, Dict, FrozenSet, Iterable, List, Set, Tuple, TypeVar

from ..inputs.values import Levels
from . import closed_parts, sums
from .groups import Collection, Group
from .known import Class, Garbage, Known

if TYPE_CHECKING:
    from .bounds import Bounds
    from .hypothesis import Hypothesis

Followed = TypeVar("Followed", "Bounds", "Hypothesis")
Classes = Dict[Class, FrozenSet[int]]
NONE: FrozenSet[int] = frozenset()


def charges(known: Known, names: Iterable[int]) -> int:
    objects = known.objects
    return sum([objects[name].charge for name in names])


def names_of(groups: Iterable[Group]) -> Set[int]:
    return set().union(*(group.names for group in groups))


# ------------------------------------------------------------------------ flips

def flip(hypothesis: "Hypothesis", what: Levels, pages: int) -> None:
    """A collection begins. Condemned is each name of these levels; bound is what may be led to."""
    known, classes = hypothesis.known, hypothesis.classes()
    doomed = {key: names for key, names in classes.items() if known.is_condemned(*key, what)}
    hypothesis.held = {key: names for key, names in classes.items() if key not in doomed}
    hypothesis.since = len(known.objects)
    condemned = NONE.union(*doomed.values())
    owed = known.space.registers + 256 * pages + charges(known, condemned)
    bound, garbage, is_exact = bound_by(hypothesis, what, condemned)
    hypothesis.collection = Collection(what, doomed, bound, husks_gone(hypothesis, what), owed)
    hypothesis.collection.garbage, hypothesis.collection.is_exact = garbage, is_exact


def bound_by(hypothesis: "Hypothesis", what: Levels, condemned: FrozenSet[int]) -> Tuple[FrozenSet[int], Garbage, bool]:
    """The condemned names to which registers and what isn't condemned lead; what is held perhaps is taken to be held.
    And the garbage that isn't condemned, and whether what is held perhaps led to nothing more."""
    known, groups = hypothesis.known, hypothesis.groups
    if not groups:
        return (*known.led_to(hypothesis.held.items(), condemned), True)
    spared = [group for group in groups if not known.is_condemned(group.area, group.level, what)]
    within = condemned | names_of(group for group in groups if group not in spared)
    bound, garbage = known.led_to(hypothesis.held.items(), within)
    more = known.garbage_leads_to(names_of(spared), within - bound) if spared else NONE
    return bound | more, garbage, not more


def husks_gone(hypothesis: "Hypothesis", what: Levels) -> Dict[int, int]:
    """The words of the husks that are condemned, by area; the hypothesis keeps the others."""
    gone: Dict[int, int] = {}
    if not hypothesis.husks:
        return gone
    left: Dict[Class, int] = {}
    for (area, level), words in hypothesis.husks.items():
        if hypothesis.known.is_condemned(area, level, what):
            gone[area] = gone.get(area, 0) + words
            hypothesis.totals[level] -= words
        else:
            left[area, level] = words
    hypothesis.husks = left
    return gone


# --------------------------------------------------------------------- reclaims

def reclaim(hypothesis: "Hypothesis") -> None:
    """A collection ends. Condemned names that a register leads to are kept, and perhaps a closed part of the other bound names."""
    known, run = hypothesis.known, hypothesis.running
    may: Classes = {}
    needed = unneeded = NONE
    if run.bound:
        sources = [*known.made_since(hypothesis.since).items(), *hypothesis.held.items()]
        needed = known.led_to(sources, run.bound, run.garbage)[0]
        unneeded = run.bound - needed
    hypothesis.held = dict(hypothesis.held)
    for key, names in run.classes.items():
        settle_class(hypothesis, key, names, needed, may, unneeded)
    for area, words in run.gone.items():
        hypothesis.accounts[area] -= words
    doomed = [group for group in hypothesis.groups if hypothesis.is_condemned(group)]
    hypothesis.collection = None
    if doomed:
        hypothesis.set_groups([group for group in hypothesis.groups if group not in doomed])
        settle_doomed(hypothesis, run.what, doomed, needed, may, unneeded)
    if may:
        add_groups(hypothesis, may, run.is_exact and not names_of(doomed) & unneeded)


def settle_class(hypothesis: "Hypothesis", key: Class, names: FrozenSet[int], needed: FrozenSet[int], may: Classes,
                 unneeded: FrozenSet[int]) -> None:
    """In a condemned class the needed names stay, and those that are bound but not needed may stay."""
    known, (area, level) = hypothesis.known, key
    after = area, known.survivor_level(hypothesis.running.what, level)
    stays = names & needed
    kept, freed = charges(known, stays), charges(known, names - stays)
    hypothesis.accounts[area] -= freed
    hypothesis.totals[level] -= kept + freed
    hypothesis.totals[after[1]] += kept
    if stays:
        hypothesis.held[after] = hypothesis.held.get(after, NONE) | stays
    if unneeded:
        unsure = names & unneeded
        if unsure:
            may[after] = may.get(after, NONE) | unsure


def settle_doomed(hypothesis: "Hypothesis", what: Levels, groups: List[Group], needed: FrozenSet[int], may: Classes,
                  unneeded: FrozenSet[int]) -> None:
    """Condemned groups go, except what is bound."""
    known = hypothesis.known
    for group in groups:
        key = group.area, known.survivor_level(what, group.level)
        stays, unsure = group.names & needed, group.names & unneeded
        if stays:
            add_certain(hypothesis, key, stays)
        if unsure:
            may[key] = may.get(key, NONE) | unsure


def add_certain(hypothesis: "Hypothesis", key: Class, names: FrozenSet[int]) -> None:
    """These names are held after all."""
    kept = charges(hypothesis.known, names)
    hypothesis.held = {**hypothesis.held, key: hypothesis.held.get(key, NONE) | names}
    hypothesis.accounts[key[0]] += kept
    hypothesis.totals[key[1]] += kept


def add_groups(hypothesis: "Hypothesis", may: Classes, is_exact: bool) -> None:
    """An unknown closed part of these names is held. What one group implies for another isn't followed."""
    known = hypothesis.known
    others = names_of(hypothesis.groups)
    apart = not others or not known.garbage_leads_to(others, NONE.union(*may.values()))
    found, are_exact = sums_by_class(known, may)
    is_exact = is_exact and apart and are_exact
    new = [Group(*key, may[key], there, is_exact) for key, there in found.items()]
    old = hypothesis.groups if apart else [group.inexact() for group in hypothesis.groups]
    hypothesis.set_groups(old + new)


def sums_by_class(known: Known, may: Classes) -> Tuple[Dict[Class, int], bool]:
    """The result of closed_parts for these names, kept because many hypotheses need the same at one command."""
    question = frozenset(may.items())
    if (known.number, question) not in known.sums_found:
        place = {name: key for key, names in may.items() for name in names}
        known.sums_found = {(known.number, question): closed_parts.sums_by_key(known.objects, set(place), place.__getitem__)}
    return known.sums_found[known.number, question]


def settle_groups(hypothesis: "Hypothesis", groups: List[Group]) -> None:
    """The hypothesis takes these groups, except those of which all or nothing is held."""
    rest, run = [], hypothesis.collection
    for group in groups:
        full = charges(hypothesis.known, group.names)
        is_doomed = run is not None and hypothesis.is_condemned(group)
        if group.names and group.sums == 1 << full and not is_doomed:
            add_certain(hypothesis, (group.area, group.level), group.names)
        elif group.sums != sums.ZERO_ALONE:
            rest.append(group)
    hypothesis.set_groups(rest)


# ----------------------------------------------------------------- silent steps

def reclaimed_if_over(followed: Followed, reclaim_all: Callable[[Followed], None]) -> List[Followed]:
    """The hypotheses, or the bounds, after a reclaim if the scan of a collection has finished; if it may have, one for each case."""
    run = followed.collection
    found: List[Followed] = []
    if run is None or run.over is False:
        return [followed]
    if run.over is None:
        other = followed.copy()
        if other.goes_on():
            found.append(other)
    reclaim_all(followed)
    return found + [followed]


def silent_flips(hypothesis: "Hypothesis") -> List["Hypothesis"]:
    """The hypotheses after a flip of the levels that are full. The number of pages to scan isn't in a reply,
    so it is the greatest possible."""
    known = hypothesis.known
    found: List[Tuple["Hypothesis", Tuple[int, ...]]] = [(hypothesis, ())]
    for level, capacity in known.capacities:
        if not hypothesis.groups:
            if hypothesis.totals[level] >= capacity:
                found = [(one, full + (level,)) for one, full in found]
        else:
            found = [split for one, full in found for split in split_by_full(one, full, level, capacity)]
    for one, full in found:
        if full:
            flip(one, full, 16 * known.space.regions)
    return [one for one, _ in found]


def split_by_full(hypothesis: "Hypothesis", full: Tuple[int, ...], level: int, capacity: int
                  ) -> List[Tuple["Hypothesis", Tuple[int, ...]]]:
    """The hypothesis and the levels that are full in it; if this level may be full or not, one for each."""
    wanted = capacity - hypothesis.totals[level]
    unsure = hypothesis.sums(lambda group: group.level == level)
    if sums.least(unsure) >= wanted:
        return [(hypothesis, full + (level,))]
    if sums.greatest(unsure) < wanted:
        return [(hypothesis, full)]
    found = []
    other = hypothesis.copy()
    if other.narrow(lambda group: group.level == level, sums.up_to(wanted - 1)):
        found.append((other, full))
    if hypothesis.narrow(lambda group: group.level == level, sums.up_to(sums.greatest(unsure)) & ~sums.up_to(wanted - 1)):
        found.append((hypothesis, full + (level,)))
    return found
