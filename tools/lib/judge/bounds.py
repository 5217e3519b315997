"""What many hypotheses have in common, if they are too many to be followed one by one.

For each name this keeps the levels at which it may be held, and whether it may be gone; for each account, each level's total,
the work owed and the work paid, the least and the greatest value; and whether a collection runs, of which levels, and whether
its scan has finished. So no right reply is refused; and once the replies have said enough, bounds become a hypothesis again.
"""
from typing import Any, Callable, Dict, FrozenSet, Iterator, List, Optional, Set, Tuple

from ..inputs.values import Levels
from ..inputs.verdict import Command
from . import collecting, sums
from .groups import BUSY, FLIPPED, NOT_FLIPPED, Collection, Group, replies_in
from .hypothesis import Hypothesis
from .known import ANYWHERE, Class, Known

GONE = 128                      # a name may be held no more; the bits below are levels
Masks = Dict[int, int]
Words = Dict[Class, int]


class LooseCollection:
    """A collection that runs: what was flipped, the names that may be and those that must be condemned (if they are
    held), those that may be bound, the words of condemned husks by area, the work owed and paid, and whether its
    scan has finished, if that is known."""
    __slots__ = ("what", "may", "must", "bound", "gone", "owed", "paid", "over")

    def __init__(self, what: Levels, may: FrozenSet[int], must: FrozenSet[int], bound: FrozenSet[int]):
        self.what, self.may, self.must, self.bound = what, may, must, bound
        self.gone: Tuple[Dict[int, int], Dict[int, int]] = ({}, {})
        self.owed = self.paid = (0, 0)
        self.over: Optional[bool] = False

    def copy(self) -> "LooseCollection":
        other = LooseCollection(self.what, self.may, self.must, self.bound)
        other.gone, other.owed, other.paid, other.over = self.gone, self.owed, self.paid, self.over
        return other


class Bounds:
    """The names that may be held with their levels, of which those made since are held for certain; and the least and
    the greatest of each account, of each level's total, and of husks by area and level."""
    __slots__ = ("known", "since", "masks", "low", "high", "least", "most", "husks", "collection")

    def __init__(self, known: Known):
        self.known, self.since = known, len(known.objects)
        self.masks: Masks = {}
        self.low: List[int] = []
        self.high: List[int] = []
        self.least: List[int] = []
        self.most: List[int] = []
        self.husks: Tuple[Words, Words] = ({}, {})
        self.collection: Optional[LooseCollection] = None

    def copy(self) -> "Bounds":
        other = object.__new__(Bounds)
        other.known, other.since, other.masks, other.husks = self.known, self.since, self.masks, self.husks
        other.low, other.high, other.least, other.most = self.low[:], self.high[:], self.least[:], self.most[:]
        other.collection = self.collection and self.collection.copy()
        return other

    @property
    def running(self) -> LooseCollection:
        """The collection, if it is certain that one runs."""
        assert self.collection is not None
        return self.collection

    @property
    def phase(self) -> object:
        """What runs; bounds with the same can be joined."""
        return self.collection and self.collection.what

    def all_masks(self) -> Masks:
        """The masks, with the names that were made since."""
        known = self.known
        if self.since < len(known.objects):
            masks = dict(self.masks)
            for (_, level), names in known.made_since(self.since).items():
                masks.update(dict.fromkeys(names, 1 << level))
            self.masks, self.since = masks, len(known.objects)
        return self.masks

    # ------------------------------------------------------------ accounts

    def account_sums(self, area: int) -> int:
        """The values that an area's account can have, as a set of sums."""
        return sums.up_to(self.high[area]) & ~(sums.up_to(self.low[area]) >> 1)

    def account_is(self, area: int, words: int) -> bool:
        if not self.low[area] <= words <= self.high[area]:
            return False
        self.low[area] = self.high[area] = words
        return True

    def refused(self, area: int, charged: int) -> bool:
        return self.account_is(area, charged)

    def allocated(self, area: int, charge: int) -> bool:
        """The account is now at most the quota."""
        level = self.known.new_levels[area]
        if not self.charge(area, charge):
            return False
        self.least[level] += charge
        self.most[level] += charge
        return True

    def charge(self, area: int, charge: int) -> bool:
        quota = self.known.quotas[area]
        if self.low[area] + charge > quota:
            return False
        self.low[area] += charge
        self.high[area] = min(self.high[area] + charge, quota)
        if self.collection is not None:
            self.owe(charge)
            self.pay(self.known.space.rate * charge)
        return True

    def grew(self, area: int, charge: int, name: int, fields: int) -> bool:
        """A block with this number of fields grew; the level of its husk may be unknown."""
        if not self.charge(area, charge):
            return False
        husk, (least, most) = fields + 1, self.husks
        own, left = self.levels_of(name), self.husk_levels(name)
        most = {**most, **{(area, level): most.get((area, level), 0) + husk for level in left}}
        for level in own:
            self.most[level] += charge - husk
            self.least[level] += (charge - husk) * (len(own) == 1)
        for level in left:
            self.most[level] += husk
            self.least[level] += husk * (len(left) == 1)
        if len(left) == 1:
            least = {**least, (area, left[0]): least.get((area, left[0]), 0) + husk}
        self.husks = least, most
        return True

    def levels_of(self, name: int) -> List[int]:
        mask = self.all_masks()[name]
        return [level for level in range(7) if mask >> level & 1]

    def husk_levels(self, name: int) -> List[int]:
        """The levels at which what a block leaves may be: of a condemned one its survivor's."""
        levels, run, area = self.levels_of(name), self.collection, self.known.objects[name].area
        if run is None or name not in run.may:
            return levels
        is_doomed = self.known.is_condemned
        after = {self.known.survivor_level(run.what, level) for level in levels if is_doomed(area, level, run.what)}
        stays = {level for level in levels if name not in run.must or not is_doomed(area, level, run.what)}
        return sorted(after | stays)

    # ----------------------------------------------------------------- work

    def owe(self, words: int) -> None:
        least, most = self.running.owed
        self.running.owed = least + words, most + words

    def replace_cdr(self) -> None:
        if self.collection is not None:
            self.owe(2)

    def pay(self, units: int) -> None:
        run = self.running
        run.paid = run.paid[0] + units, run.paid[1] + units
        if run.over is not True:
            run.over = run.paid[0] >= run.owed[1] or None

    def scan_before_fault(self) -> None:
        if self.collection is not None:
            self.pay(0)

    def goes_on(self) -> bool:
        """Assumes that the collection's scan hasn't finished; False if that can't be."""
        run = self.running
        run.over = False
        run.owed = max(run.owed[0], run.paid[0] + 1), run.owed[1]
        return run.paid[0] < run.owed[1]

    def replies_to(self, command: Command) -> FrozenSet[str]:
        run, head = self.collection, command[0]
        if run is None:
            return FLIPPED if head == "flip" else NOT_FLIPPED
        if head == "flip":
            return BUSY
        units = 0 if head == "reclaim" else command[1]
        return replies_in(head, run.over is True or run.paid[0] + units >= run.owed[1], run.over)

    def collect(self, command: Command, reply: str, pages: int) -> None:
        if reply == "flipped":
            self.flip(command[1], (pages, pages))
        elif reply in ("more", "done"):
            least, most = self.running.paid
            self.running.paid = least + command[1], most + command[1]
        if reply in ("done", "reclaimed"):
            self.running.over = True
        elif reply in ("more", "not-done"):
            self.goes_on()
        if reply == "reclaimed":
            self.reclaim()

    # ---------------------------------------------------------- collections

    def doomed_bits(self, what: Levels) -> List[int]:
        """By area the levels that such a flip condemns, as bits."""
        levels = range(7) if isinstance(what, str) else what
        bits = sum(1 << level for level in levels)
        return [0 if is_static else bits for is_static in self.known.statics]

    def flip(self, what: Levels, pages: Tuple[int, int]) -> None:
        known, masks, bits = self.known, self.all_masks(), self.doomed_bits(what)
        objects = known.objects
        may = frozenset(name for name, mask in masks.items() if mask & bits[objects[name].area])
        must = frozenset(name for name in may if not masks[name] & ~(bits[objects[name].area] | GONE))
        run = LooseCollection(what, may, must, known.led_to([(ANYWHERE, masks.keys() - must)], may)[0])
        sure = sum(objects[name].charge for name in must if not masks[name] & GONE)
        unsure = min(sum(objects[name].charge for name in may),
                     sum(high for high, is_static in zip(self.high, known.statics) if not is_static))
        run.owed = (known.space.registers + 256 * pages[0] + sure, known.space.registers + 256 * pages[1] + unsure)
        run.gone = self.take_husks(0, what), self.take_husks(1, what)
        self.collection = run

    def take_husks(self, side: int, what: Levels) -> Dict[int, int]:
        """The words of the condemned husks by area, at least or at most; the bounds keep the others."""
        gone: Dict[int, int] = {}
        left: Words = {}
        for (area, level), words in self.husks[side].items():
            if self.known.is_condemned(area, level, what):
                gone[area] = gone.get(area, 0) + words
            else:
                left[area, level] = words
        self.husks = (left, self.husks[1]) if side == 0 else (self.husks[0], left)
        return gone

    def reclaim(self) -> None:
        known, run, masks = self.known, self.running, self.all_masks()
        sure = {name for name, mask in masks.items() if mask < GONE and name not in run.may}
        needed = known.led_to([(ANYWHERE, sure)], run.may)[0]
        after, found, bits = dict(masks), {}, self.doomed_bits(run.what)
        charges: Dict[Tuple[int, int, int], int] = {}           # by area, and by the mask before and after
        for name, mask in masks.items():
            one, new = known.objects[name], mask
            if name in run.may:
                case = mask, bits[one.area], name in run.must, name in needed, name in run.bound
                if case not in found:
                    found[case] = self.mask_after(*case)
                new = after[name] = found[case]
            charges[one.area, mask, new] = charges.get((one.area, mask, new), 0) + one.charge
        self.masks = {name: mask for name, mask in after.items() if mask != GONE}
        self.settle_accounts(charges)
        self.count_totals(charges)
        self.collection = None

    def mask_after(self, mask: int, bits: int, is_doomed: bool, is_needed: bool, is_bound: bool) -> int:
        """The levels, after the reclaim, of a name that may be condemned at the levels of these bits, and is condemned there if it
        is doomed and held."""
        run, known = self.running, self.known
        stays = mask & ~bits if is_doomed else mask
        moved = 0
        for level in range(7):
            if mask & bits & 1 << level:
                moved |= 1 << known.survivor_level(run.what, level)
        if is_needed:
            return (stays | moved) & ~GONE
        return (stays | moved | GONE) if is_bound else stays | GONE

    def settle_accounts(self, charges: Dict[Tuple[int, int, int], int]) -> None:
        """A reclaim frees what is in no mask any more for certain, and perhaps what may be gone."""
        run, areas = self.running, range(len(self.known.areas))
        freed, at_most, least, most = ([0 for _ in areas] for _ in range(4))
        for (area, old, new), charge in charges.items():
            if new & GONE:
                at_most[area] += charge
                freed[area] += charge * (new == GONE and not old & GONE)
            else:
                least[area] += charge
            most[area] += charge * (new != GONE)
        for side, totals in zip(self.husks, (least, most)):
            for (area, _), words in side.items():
                totals[area] += words
        for area in areas:
            self.low[area] = max(least[area], self.low[area] - at_most[area] - run.gone[1].get(area, 0))
            self.high[area] = min(most[area], self.high[area] - freed[area] - run.gone[0].get(area, 0))

    def count_totals(self, charges: Dict[Tuple[int, int, int], int]) -> None:
        """The totals of the levels by what the masks and the husks say."""
        self.least, self.most = ([0] * len(self.least) for _ in range(2))
        for (_, _, mask), charge in charges.items():
            if not mask & (mask - 1) and mask != GONE:
                self.least[mask.bit_length() - 1] += charge
            for level in range(len(self.most)):
                if mask >> level & 1:
                    self.most[level] += charge
        for side, totals in zip(self.husks, (self.least, self.most)):
            for (_, level), words in side.items():
                totals[level] += words

    # --------------------------------------------------------- silent steps

    def is_quiet(self) -> bool:
        return self.collection is not None and self.collection.over is False

    def reclaimed_if_over(self) -> List["Bounds"]:
        return collecting.reclaimed_if_over(self, Bounds.reclaim)

    def flipped_if_full(self) -> List["Bounds"]:
        return [self] if self.collection is not None else self.silent_flips()

    def silent_flips(self) -> List["Bounds"]:
        found: List[Tuple["Bounds", Tuple[int, ...]]] = [(self, ())]
        for level, capacity in self.known.capacities:
            found = [split for one, full in found for split in one.split_by_full(full, level, capacity)]
        for one, full in found:
            if full:
                one.flip(full, (0, 16 * self.known.space.regions))
        return [one for one, _ in found]

    def split_by_full(self, full: Tuple[int, ...], level: int, capacity: int) -> Iterator[Tuple["Bounds", Tuple[int, ...]]]:
        """These bounds and the levels that are full; if this level may be full or not, one for each."""
        if self.least[level] < capacity <= self.most[level]:
            other = self.copy()
            other.most[level] = capacity - 1
            yield other, full
            self.least[level] = capacity
        yield self, full + (level,) * (self.least[level] >= capacity)


# --------------------------------------------------------- into bounds and out

def of(hypothesis: Hypothesis) -> Bounds:
    """The bounds of one hypothesis."""
    bounds, known, run = Bounds(hypothesis.known), hypothesis.known, hypothesis.collection
    classes = list(hypothesis.classes().items())
    if run is not None:
        classes += list(run.classes.items())
    bounds.masks = {name: 1 << level for (_, level), names in classes for name in names}
    for group in hypothesis.groups:
        bounds.masks.update(dict.fromkeys(group.names, 1 << group.level | GONE))
    values = [hypothesis.account_sums(area) for area in range(len(known.areas))]
    bounds.low, bounds.high = [sums.least(there) for there in values], [sums.greatest(there) for there in values]
    bounds.least, bounds.most = hypothesis.totals[:], hypothesis.totals[:]
    for group in hypothesis.groups:
        bounds.least[group.level] += sums.least(group.sums)
        bounds.most[group.level] += sums.greatest(group.sums)
    spared = [group for group in hypothesis.groups if run is None or not hypothesis.is_condemned(group)]
    bounds.husks = with_charges(hypothesis.husks, spared, class_of)
    bounds.collection = loose(hypothesis, run) if run is not None else None
    return bounds


def class_of(group: Group) -> Class:
    return group.area, group.level


def with_charges(words: Dict[Any, int], groups: List[Group], key: Callable[[Group], Any]
                 ) -> Tuple[Dict[Any, int], Dict[Any, int]]:
    """The words by area and level, or by area, at least and at most with the charges of groups without names."""
    least, most = dict(words), dict(words)
    for group in groups:
        if not group.names:
            least[key(group)] = least.get(key(group), 0) + sums.least(group.sums)
            most[key(group)] = most.get(key(group), 0) + sums.greatest(group.sums)
    return least, most


def loose(hypothesis: Hypothesis, run: Collection) -> LooseCollection:
    doomed = [group for group in hypothesis.groups if hypothesis.is_condemned(group)]
    condemned = frozenset().union(*run.classes.values(), *(group.names for group in doomed))
    found = LooseCollection(run.what, condemned, condemned, run.bound)
    found.gone = with_charges(run.gone, doomed, lambda group: group.area)
    least = sum(sums.least(group.sums) for group in doomed)
    found.owed, found.paid = (run.owed + least, hypothesis.most_owed()), (run.paid, run.paid)
    found.over = run.over
    return found


def joined(one: Bounds, other: Bounds) -> Bounds:
    """The bounds of both, which are in the same phase."""
    found = one.copy()
    ours, theirs = found.all_masks(), other.all_masks()
    if ours is not theirs and ours != theirs:
        found.masks = {name: ours.get(name, GONE) | theirs.get(name, GONE) for name in ours.keys() | theirs.keys()}
    found.low, found.least = smaller(one.low, other.low), smaller(one.least, other.least)
    found.high, found.most = greater(one.high, other.high), greater(one.most, other.most)
    found.husks = both(one.husks, other.husks)
    run, also = found.collection, other.collection
    if run is not None and also is not None:
        run.may, run.must, run.bound = run.may | also.may, run.must & also.must, run.bound | also.bound
        run.gone = both(run.gone, also.gone)
        run.owed = min(run.owed[0], also.owed[0]), max(run.owed[1], also.owed[1])
        run.paid = min(run.paid[0], also.paid[0]), max(run.paid[1], also.paid[1])
        run.over = run.over if run.over is also.over else None
    return found


def smaller(one: List[int], other: List[int]) -> List[int]:
    """The lesser of two, place by place."""
    return [min(ours, theirs) for ours, theirs in zip(one, other)]


def greater(one: List[int], other: List[int]) -> List[int]:
    """The greater of two, place by place."""
    return [max(ours, theirs) for ours, theirs in zip(one, other)]


def both(one: Tuple[dict, dict], other: Tuple[dict, dict]) -> Tuple[dict, dict]:
    """The least and the greatest of two, key by key."""
    least, most = ({key: end(ours.get(key, 0), theirs.get(key, 0)) for key in {*ours, *theirs}}
                   for end, ours, theirs in zip((min, max), one, other))
    return least, most


def exact(bounds: Bounds) -> Optional[Hypothesis]:
    """The hypothesis that these bounds are, if they know enough: while a collection of everything runs, since then no
    level matters any more; and while none runs, if each name is at one level."""
    run = bounds.collection
    if run is not None:
        return full_flip(bounds, run) if run.what == "full" and run.over is False and run.paid == (0, 0) else None
    masks = bounds.all_masks()
    if any(mask & ~GONE & ((mask & ~GONE) - 1) for mask in masks.values()):
        return None
    return idle(bounds, masks)


def empty(known: Known) -> Hypothesis:
    """A hypothesis that holds nothing as yet."""
    found = Hypothesis(known)
    found.held, found.accounts = {}, [0] * len(known.areas)
    found.totals = [0] * len(found.totals)
    return found


def hold(found: Hypothesis, names: Dict[Class, FrozenSet[int]]) -> None:
    for key, there in names.items():
        collecting.add_certain(found, key, there)


def add_husks(found: Hypothesis, husks: Words) -> None:
    for (area, level), words in husks.items():
        found.accounts[area] += words
        found.totals[level] += words
    found.husks = dict(husks)


def add_rest(found: Hypothesis, bounds: Bounds, area: int) -> None:
    """What of an account isn't explained is garbage of level 0."""
    low, high = (max(0, words - found.accounts[area]) for words in (bounds.low[area], bounds.high[area]))
    if high:
        rest = sums.up_to(high) & ~(sums.up_to(low) >> 1)
        found.set_groups([*found.groups, Group(area, 0, frozenset(), rest, False)])


def by_class(known: Known, masks: Masks, names: Iterator[int]) -> Dict[Class, FrozenSet[int]]:
    found: Dict[Class, Set[int]] = {}
    for name in names:
        level = (masks[name] & ~GONE).bit_length() - 1
        found.setdefault((known.objects[name].area, level), set()).add(name)
    return {key: frozenset(there) for key, there in found.items()}


def full_flip(bounds: Bounds, run: LooseCollection) -> Hypothesis:
    """A collection of everything that has just begun: what is bound is held, and of the rest only charges matter."""
    known, masks = bounds.known, bounds.all_masks()
    found = empty(known)
    hold(found, by_class(known, masks, (name for name in masks if known.statics[known.objects[name].area])))
    add_husks(found, {key: words for key, words in bounds.husks[1].items() if known.statics[key[0]]})
    doomed = {(area, 0): frozenset(name for name in run.bound if known.objects[name].area == area)
              for area, is_static in enumerate(known.statics) if not is_static}
    owed = run.owed[0] - sum(known.objects[name].charge for name in run.must if not masks[name] & GONE)
    for (area, _), names in doomed.items():
        words = collecting.charges(known, names)
        found.accounts[area] += words
        found.totals[0] += words
        owed += words
        add_rest(found, bounds, area)
    found.collection = Collection("full", doomed, run.bound, {}, owed)
    return found


def idle(bounds: Bounds, masks: Masks) -> Optional[Hypothesis]:
    """Between collections: what may be gone is in groups, and so are husks that may be."""
    known = bounds.known
    found = empty(known)
    hold(found, by_class(known, masks, (name for name, mask in masks.items() if not mask & GONE)))
    add_husks(found, bounds.husks[0])
    for key, names in by_class(known, masks, (name for name, mask in masks.items() if mask & GONE)).items():
        there = sums.of_any(known.objects[name].charge for name in names)
        found.set_groups([*found.groups, Group(*key, names, there, False)])
    for key, words in bounds.husks[1].items():
        more = words - bounds.husks[0].get(key, 0)
        if more:
            found.set_groups([*found.groups, Group(*key, frozenset(), sums.up_to(more), False)])
    for area in range(len(known.areas)):
        low, high = (words - found.accounts[area] for words in (bounds.low[area], bounds.high[area]))
        allowed = sums.up_to(max(high, -1)) & ~(sums.up_to(max(low, 0)) >> 1)
        if not found.narrow(in_area(area), allowed):
            return None
    return found


def in_area(area: int) -> Callable[[Group], bool]:
    return lambda group: group.area == area


def joined_by_phase(all_bounds: List[Bounds]) -> List[Bounds]:
    """One for each phase."""
    found: Dict[object, Bounds] = {}
    for one in all_bounds:
        found[one.phase] = joined(found[one.phase], one) if one.phase in found else one
    return list(found.values())
