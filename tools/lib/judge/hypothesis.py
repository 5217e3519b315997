"""One way in which the free choices of a run were taken so far: what is held and charged, and the collection that runs.

Some names are held for certain. Others are in groups, of which a reclaim kept an unknown closed part; a group has the
set of the sums of charges that its part can have. A method that answers False says that the hypothesis can't explain
a reply. Dictionaries, sets and groups are shared by copies, so they are replaced and never changed.
"""
from typing import Callable, Dict, FrozenSet, List, Optional

from ..inputs.verdict import Command
from . import collecting, sums
from .groups import BUSY, FLIPPED, NOT_FLIPPED, Collection, Group, level_in, replies_in
from .known import Class, Known


Chosen = Callable[[Group], bool]


class Hypothesis:
    """By area and level the names that are certainly held and not condemned, and those made since are held, too; what
    of each account and of each level's total is certain; the words of husks by area and level; the groups; and the
    collection that runs, if one does."""
    __slots__ = ("known", "since", "held", "accounts", "totals", "husks", "groups", "unsure", "collection")

    def __init__(self, known: Known):
        self.known, self.since = known, len(known.objects)
        self.held: Dict[Class, FrozenSet[int]] = {(area, 0): names for (area, _), names in known.made_since(0).items()}
        self.accounts = [collecting.charges(known, self.held.get((area, 0), ())) for area in range(len(known.areas))]
        self.totals = [sum(self.accounts)] + [0] * known.space.levels
        self.husks: Dict[Class, int] = {}
        self.set_groups([])
        self.collection: Optional[Collection] = None

    def copy(self) -> "Hypothesis":
        other = object.__new__(Hypothesis)
        other.known, other.since, other.held = self.known, self.since, self.held
        other.accounts, other.totals = self.accounts[:], self.totals[:]
        other.husks, other.groups, other.unsure = self.husks, self.groups, self.unsure
        other.collection = self.collection and self.collection.copy()
        return other

    @property
    def running(self) -> Collection:
        """The collection, if it is certain that one runs."""
        assert self.collection is not None
        return self.collection

    def counts(self) -> tuple:
        """Two hypotheses that are the same have the same counts."""
        run = self.collection
        return tuple(self.accounts), tuple(self.totals), run and (run.what, run.owed, run.paid, run.over)

    def key(self) -> tuple:
        """Two hypotheses of one key are the same."""
        run = self.collection
        doomed = run and (frozenset(run.classes.items()), run.bound, frozenset(run.gone.items()))
        return (self.counts(), doomed, frozenset(self.classes().items()), frozenset(self.husks.items()),
                frozenset(group.key() for group in self.groups))

    def classes(self) -> Dict[Class, FrozenSet[int]]:
        """By area and level all names that are certainly held and not condemned."""
        found = dict(self.held)
        if self.since < len(self.known.objects):
            for key, names in self.known.made_since(self.since).items():
                found[key] = found[key] | names if key in found else names
        return found

    def set_groups(self, groups: List[Group]) -> None:
        """Takes these groups, with the most by area that they can be charged."""
        self.groups, self.unsure = groups, [0] * len(self.known.areas)
        for group in groups:
            self.unsure[group.area] += sums.greatest(group.sums)

    def is_quiet(self) -> bool:
        """No silent step precedes an allocation."""
        if self.collection is not None or self.groups:
            return self.collection is not None and self.collection.over is False
        totals = self.totals
        for level, capacity in self.known.capacities:
            if totals[level] >= capacity:
                return False
        return True

    def reclaimed_if_over(self) -> List["Hypothesis"]:
        """The hypotheses after a reclaim if the scan of a collection has finished; if it may have, one for each case."""
        return collecting.reclaimed_if_over(self, collecting.reclaim)

    def flipped_if_full(self) -> List["Hypothesis"]:
        """The hypotheses after a flip of the full levels if no collection runs."""
        return [self] if self.collection is not None else collecting.silent_flips(self)

    # ------------------------------------------------------------ accounts

    def sums(self, chosen: Chosen) -> int:
        """The sums that the parts of the chosen groups can have together."""
        out = sums.ZERO_ALONE
        for group in self.groups:
            if chosen(group):
                out = sums.added(out, group.sums)
        return out

    def account_sums(self, area: int) -> int:
        """The values that an area's account can have, as a set of sums."""
        return self.sums(lambda group: group.area == area) << self.accounts[area]

    def account_is(self, area: int, words: int) -> bool:
        """Takes it that the account is this; False if it can't be."""
        rest = words - self.accounts[area]
        if rest <= 0 and not self.groups:
            return rest == 0
        return rest >= 0 and self.narrow(lambda group: group.area == area, 1 << rest)

    def account_is_at_most(self, area: int, words: int) -> bool:
        """Takes it that the account is at most this; False if it can't be."""
        rest = words - self.accounts[area]
        if rest < 0 or self.unsure[area] <= rest:
            return rest >= 0
        return self.narrow(lambda group: group.area == area, sums.up_to(rest))

    def narrow(self, chosen: Chosen, allowed: int) -> bool:
        """Takes it that the sums of the chosen groups make an allowed one together. If they can't, nothing changes."""
        some = [group for group in self.groups if chosen(group)]
        total = self.sums(chosen)
        if total & allowed in (0, total):
            return total & allowed != 0
        if len(some) > 1 or not some[0].is_exact:
            self.known.relax("sums")
        sums_left = [sums.that_lead_to(one.sums, self.sums(lambda group: group is not one and chosen(group)), allowed)
                     for one in some]
        if not all(sums_left):
            return False
        narrower = [Group(one.area, one.level, one.names, there, one.is_exact) for one, there in zip(some, sums_left)]
        collecting.settle_groups(self, [group for group in self.groups if not chosen(group)] + narrower)
        return True

    # ----------------------------------------------------------- allocations

    def allocated(self, area: int, charge: int) -> bool:
        """An allocation made objects with this charge."""
        known, total = self.known, self.accounts[area] + charge
        if total + self.unsure[area] > known.quotas[area]:
            if not self.account_is_at_most(area, known.quotas[area] - charge):
                return False
            total = self.accounts[area] + charge
        self.accounts[area] = total
        self.totals[known.new_levels[area]] += charge
        if self.collection is not None:
            self.pay_for(charge)
        return True

    def grew(self, area: int, charge: int, name: int, fields: int) -> bool:
        """A block with this number of fields grew. Its new charge is wanted, and its old words stay as a husk."""
        if not self.account_is_at_most(area, self.known.quotas[area] - charge):
            return False
        husk, run = fields + 1, self.collection
        level = there = self.level_of(name, area)
        doomed = run.level_of(name, area) if run is not None else None
        if run is not None and doomed is not None:
            level, there = doomed, self.known.survivor_level(run.what, doomed)
        self.accounts[area] += charge
        self.totals[level] += charge - husk
        self.totals[there] += husk
        self.husks = {**self.husks, (area, there): self.husks.get((area, there), 0) + husk}
        if run is not None:
            self.pay_for(charge)
        return True

    def level_of(self, name: int, area: int) -> int:
        """The level of a name that is held and not condemned."""
        found = level_in(self.held, name, area) if name < self.since else None
        return self.known.new_levels[area] if found is None else found

    def pay_for(self, charge: int) -> None:
        """An allocation owes its charge, and scans before it is done."""
        self.running.owed += charge
        self.pay(self.known.space.rate * charge)

    def refused(self, area: int, charged: int) -> bool:
        """An allocation was refused when the area was charged this."""
        return self.account_is(area, charged)

    def scan_before_fault(self) -> None:
        """A command that replied `fault` may have scanned first."""
        if self.collection is not None:
            self.pay(0)

    def replace_cdr(self) -> None:
        """An `rplacd` owes the two words of the pair as which it may have relocated a cell."""
        if self.collection is not None:
            self.collection.owed += 2

    # ----------------------------------------------------------- collections

    def is_condemned(self, group: Group) -> bool:
        return self.known.is_condemned(group.area, group.level, self.running.what)

    def most_owed(self) -> int:
        """The most that the collection can owe."""
        owed = self.running.owed
        for group in self.groups:
            if self.is_condemned(group):
                owed += sums.greatest(group.sums)
        return owed

    def pay(self, units: int) -> None:
        """Units were scanned: the scan may have finished now, and must have if all work owed is paid."""
        run = self.running
        run.paid += units
        if run.over is not True:
            run.over = run.paid >= self.most_owed() or None

    def goes_on(self) -> bool:
        """Assumes that the scan hasn't finished, so that more work is owed than paid; False if that can't be."""
        run = self.running
        run.over, most = False, self.most_owed()
        if run.paid < run.owed or most == run.owed:
            return run.paid < most
        enough = sums.up_to(most - run.owed) & ~sums.up_to(run.paid - run.owed)
        return self.narrow(self.is_condemned, enough)

    def replies_to(self, command: Command) -> FrozenSet[str]:
        """The first words of the replies that this command can have."""
        run, head = self.collection, command[0]
        if run is None:
            return FLIPPED if head == "flip" else NOT_FLIPPED
        if head == "flip":
            return BUSY
        units = 0 if head == "reclaim" else command[1]
        return replies_in(head, run.over is True or run.paid + units >= self.most_owed(), run.over)

    def collect(self, command: Command, reply: str, pages: int) -> None:
        """The command had a reply with this first word, which is one of those that it can have."""
        if reply == "flipped":
            collecting.flip(self, command[1], pages)
        elif reply in ("more", "done"):
            self.running.paid += command[1]
        if reply in ("done", "reclaimed"):
            self.running.over = True
        elif reply in ("more", "not-done"):
            self.goes_on()
        if reply == "reclaimed":
            collecting.reclaim(self)
