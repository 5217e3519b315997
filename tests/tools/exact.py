"""All runs of a short input by brute force: each state in which the machine can be is kept by itself.

This is docs/MEANING.md once more, as simply as it can be written, and with nothing of the judge but the graph of objects:
a state is what is held at which level, the husks, and the phase. It is for inputs of some forty commands.
"""
from typing import FrozenSet, Iterator, List, NamedTuple, Optional, Set, Tuple

from lib.inputs import dumping, verdict
from lib.inputs.graph import ALLOCATING, EFFECTS, Graph
from lib.inputs.values import Levels, Ref

MOST_STATES = 4000


class TooMany(Exception):
    """The states are too many to be followed."""


class Phase(NamedTuple):
    """A collection that runs: what was flipped, the names condemned and those bound, the husks gone by area, the greatest
    work it owes, the work paid, and whether its scan has finished."""
    what: Levels
    condemned: FrozenSet[int]
    bound: FrozenSet[int]
    gone: Tuple[int, ...]
    owed: int
    paid: int
    over: bool


class State(NamedTuple):
    """Each name that is held with its level, the husks by area and level, and the collection that runs."""
    held: FrozenSet[Tuple[int, int]]
    husks: FrozenSet[Tuple[Tuple[int, int], int]]
    phase: Optional[Phase]


class Runs:
    """The states that explain the replies so far."""

    def __init__(self, world: verdict.World):
        self.world, self.space, self.areas = world, world.space, world.areas
        self.graph = Graph(world)
        self.objects = self.graph.objects
        self.states: Set[State] = {State(frozenset((name, 0) for name in range(len(self.objects))), frozenset(), None)}

    def take(self, command: verdict.Command, lines: List[str]) -> bool:
        """Takes a command and its reply; False if no run shows it."""
        head, states = command[0], self.states
        if head in ALLOCATING and any(self.space.capacity):
            states = {after for state in states for after in self.silent(state)}
        if head in EFFECTS:
            self.states = self.program(states, command, lines)
        elif head == "dump":
            self.states = states if lines == dumping.lines_of(self.world, self.graph) else set()
        elif head == "stats":
            self.states = {state for state in states if lines == self.stats(state)}
        elif head == "page-out":
            self.states = states if lines == ["ok"] else set()
        else:
            self.states = {after for state in states for after in getattr(self, head)(state, lines, *command[1:])}
        if len(self.states) > MOST_STATES:
            raise TooMany
        return bool(self.states)

    # ------------------------------------------------------------ accounts

    def account(self, state: State, area: int) -> int:
        held = sum(self.objects[name].charge for name, _ in state.held if self.objects[name].area == area)
        husks = sum(words for (there, _), words in state.husks if there == area)
        return held + husks + (state.phase.gone[area] if state.phase else 0)

    def stats(self, state: State) -> List[str]:
        return [f"area {area.name} {self.account(state, at)} {area.quota}" for at, area in enumerate(self.areas)]

    def total(self, state: State, level: int) -> int:
        held = sum(self.objects[name].charge for name, there in state.held if there == level)
        return held + sum(words for (_, there), words in state.husks if there == level)

    # ------------------------------------------------------------ programs

    def program(self, states: Set[State], command: verdict.Command, lines: List[str]) -> Set[State]:
        wanted = self.graph.allocation(command)
        if wanted is None:
            reply = self.graph.step(command)
            if lines != [reply]:
                return set()
            return {self.owing(state, 2) for state in states} if (command[0], reply) == ("rplacd", "ok") else states
        area, charge = wanted
        if lines != ["ok"]:
            return {state for state in states if lines == self.refusal(state, area, charge)}
        left = [state for state in states if self.account(state, area) + charge <= self.areas[area].quota]
        if command[0] == "grow":
            name = self.graph.registers[command[1]].n
            husk = 1 + len(self.objects[name].fields)
            left = [self.with_husk(state, name, husk) for state in left]
        before = len(self.objects)
        self.graph.step(command)
        level = 1 if self.areas[area].kind == "ephemeral" else 0
        new = frozenset((name, level) for name in range(before, len(self.objects)))
        left = [self.owing(state._replace(held=state.held | new), charge) for state in left]
        return {after for state in left for after in self.paying(state, self.space.rate * charge)}

    def refusal(self, state: State, area: int, charge: int) -> List[str]:
        rule, charged = self.areas[area], self.account(state, area)
        return [f"exhausted {rule.name} {charged} {charge} {rule.quota}"] if charged + charge > rule.quota else []

    def with_husk(self, state: State, name: int, words: int) -> State:
        area, level, husks = self.objects[name].area, dict(state.held)[name], dict(state.husks)
        if state.phase and name in state.phase.condemned:
            level = self.survivor(state.phase.what, level)
        husks[area, level] = husks.get((area, level), 0) + words
        return state._replace(husks=frozenset(husks.items()))

    # ---------------------------------------------------------------- work

    def owing(self, state: State, words: int) -> State:
        phase = state.phase
        return state._replace(phase=phase._replace(owed=phase.owed + words)) if phase else state

    def paying(self, state: State, units: int) -> Iterator[State]:
        """The states after some work: the scan may have finished, and has if all work is paid."""
        phase = state.phase
        if not phase:
            yield state
            return
        paid = phase._replace(paid=phase.paid + units)
        yield state._replace(phase=paid._replace(over=True))
        if not phase.over and paid.paid < paid.owed:
            yield state._replace(phase=paid)

    def scavenge(self, state: State, lines: List[str], units: int) -> Iterator[State]:
        if not state.phase:
            yield from [state] if lines == ["not-flipped"] else []
            return
        for after in self.paying(state, units):
            if lines == ["done" if after.phase is not None and after.phase.over else "more"]:
                yield after

    # --------------------------------------------------------- collections

    def is_condemned(self, area: int, level: int, what: Levels) -> bool:
        return self.areas[area].kind != "static" and (isinstance(what, str) or level in what)

    def survivor(self, what: Levels, level: int) -> int:
        return level + 1 if what != "full" and level < self.space.levels else 0

    def closure(self, names: Set[int]) -> Set[int]:
        found, work = set(names), list(names)
        while work:
            for value in self.objects[work.pop()].fields:
                if isinstance(value, Ref) and value.n not in found:
                    found.add(value.n)
                    work.append(value.n)
        return found

    def roots(self) -> Set[int]:
        return {value.n for value in self.graph.registers if isinstance(value, Ref)}

    def flipped(self, state: State, what: Levels, pages: int) -> State:
        condemned = {name for name, level in state.held if self.is_condemned(self.objects[name].area, level, what)}
        spared = {name for name, _ in state.held} - condemned
        owed = self.space.registers + 256 * pages + sum(self.objects[name].charge for name in condemned)
        gone, husks = [0] * len(self.areas), {}
        for (area, level), words in state.husks:
            if self.is_condemned(area, level, what):
                gone[area] += words
            else:
                husks[area, level] = words
        bound = self.closure(self.roots() | spared)
        return State(state.held, frozenset(husks.items()),
                     Phase(what, frozenset(condemned), frozenset(bound), tuple(gone), owed, 0, False))

    def flip(self, state: State, lines: List[str], what: Levels) -> List[State]:
        if state.phase:
            return [state] if lines == ["busy"] else []
        words = lines[0].split(" ")
        if len(words) != 2 or words[0] != "flipped" or words[1] not in map(str, range(16 * self.space.regions + 1)):
            return []
        return [self.flipped(state, what, int(words[1]))]

    def reclaim(self, state: State, lines: List[str]) -> Iterator[State]:
        if not state.phase or not state.phase.over:
            expected = "not-done" if state.phase else "not-flipped"
            yield from [state] if lines == [expected] else []
        elif lines == ["reclaimed"]:
            yield from self.settled(state, state.phase)

    def settled(self, state: State, phase: Phase) -> Iterator[State]:
        """The states after a reclaim: each closed part of what is bound and not led to may stay."""
        needed = self.closure(self.roots() | {name for name, _ in state.held if name not in phase.condemned})
        may = sorted((phase.condemned & phase.bound) - needed)
        for part in self.closed_parts(may, needed):
            stays = needed | part
            held = frozenset((name, self.survivor(phase.what, level) if name in phase.condemned else level)
                             for name, level in state.held if name in stays)
            yield State(held, state.husks, None)

    def closed_parts(self, names: List[int], needed: Set[int]) -> List[Set[int]]:
        """The sets of these names that have, beside the needed ones, all to which they refer."""
        found: Set[FrozenSet[int]] = {frozenset()}
        for name in names:
            new = frozenset(self.closure({name}) - needed)
            found |= {part | new for part in found}
            if len(found) > MOST_STATES:
                raise TooMany
        return [set(part) for part in found]

    def silent(self, state: State) -> Iterator[State]:
        """The states after the silent steps. How many pages a silent flip finds isn't shown: the most leaves the most
        open."""
        states = self.settled(state, state.phase) if state.phase and state.phase.over else [state]
        for after in states:
            levels = enumerate(self.space.capacity, 1)
            full = tuple(level for level, most in levels if most and self.total(after, level) >= most)
            yield self.flipped(after, full, 16 * self.space.regions) if full and not after.phase else after


def first_wrong(data: bytes, replies: List[List[str]]) -> Optional[int]:
    """The number of the first command whose reply no run shows; None if all are right. Raises TooMany."""
    found = verdict.judge(data)
    runs = Runs(found.so_far)
    for number, (command, lines) in enumerate(zip(found.commands, replies), 1):
        if not runs.take(command, lines):
            return number
    return None
