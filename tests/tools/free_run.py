"""Runs of an input whose free choices are drawn: how many pages a flip finds, when the scan of a collection has finished,
and which unreachable objects a reclaim keeps. Each is a run that the definitions allow (docs/MEANING.md)."""
import random
from typing import Dict, List, Optional, Set, Tuple

from lib.inputs import dumping, verdict
from lib.inputs.graph import ALLOCATING, EFFECTS
from lib.inputs.values import Levels
from lib.judge.known import Known
from lib.judge.reach import closure, names_in


class Collection:
    def __init__(self, what: Levels, condemned: Set[int], bound: Set[int], owed: int):
        self.what, self.condemned, self.bound, self.owed = what, condemned, bound, owed
        self.paid, self.over = 0, False


class FreeRun:
    """The state of a run: the level of each name that is held, and the words of husks."""

    def __init__(self, world: verdict.World, draw: random.Random):
        self.known, self.draw = Known(world), draw
        self.graph, self.objects, self.space = self.known.graph, self.known.objects, world.space
        self.level: Dict[int, int] = dict.fromkeys(range(len(self.objects)), 0)
        self.husks: Dict[Tuple[int, int], int] = {}
        self.gone: Dict[int, int] = {}
        self.collection: Optional[Collection] = None

    def account(self, area: int) -> int:
        held = sum(self.objects[name].charge for name in self.level if self.objects[name].area == area)
        return held + sum(words for (there, _), words in self.husks.items() if there == area) + self.gone.get(area, 0)

    def total(self, level: int) -> int:
        held = sum(self.objects[name].charge for name, there in self.level.items() if there == level)
        return held + sum(words for (_, there), words in self.husks.items() if there == level)

    def reply(self, command: verdict.Command) -> List[str]:
        head = command[0]
        if head in ALLOCATING and any(self.space.capacity):
            self.silent_steps()
        if head in EFFECTS:
            return [self.program(command)]
        if head == "stats":
            return [f"area {area.name} {self.account(at)} {area.quota}" for at, area in enumerate(self.known.areas)]
        if head == "dump":
            return dumping.lines_of(self.known.world, self.graph)
        return ["ok"] if head == "page-out" else [getattr(self, head)(*command[1:])]

    def program(self, command: verdict.Command) -> str:
        wanted = self.graph.allocation(command)
        if wanted is None:
            reply = self.graph.step(command)
            if command[0] == "rplacd" and reply == "ok" and self.collection:
                self.collection.owed += 2
            return reply
        area, charge = wanted
        rule, charged = self.known.areas[area], self.account(area)
        if charged + charge > rule.quota:
            return f"exhausted {rule.name} {charged} {charge} {rule.quota}"
        if command[0] == "grow":
            self.leave_husk(self.graph.registers[command[1]].n)
        before = len(self.objects)
        reply = self.graph.step(command)
        self.level.update(dict.fromkeys(range(before, len(self.objects)), self.known.new_levels[area]))
        if self.collection:
            self.collection.owed += charge
            self.pay(self.space.rate * charge)
        return reply

    def leave_husk(self, name: int) -> None:
        block, level = self.objects[name], self.level[name]
        if self.collection and name in self.collection.condemned:
            level = self.known.survivor_level(self.collection.what, level)
        key = block.area, level
        self.husks[key] = self.husks.get(key, 0) + 1 + len(block.fields)

    def pay(self, units: int) -> None:
        run = self.collection
        assert run is not None
        run.paid += units
        run.over = run.over or run.paid >= run.owed or self.draw.random() < 0.2

    # ----------------------------------------------------------- collections

    def flip(self, what: Levels, pages: Optional[int] = None) -> str:
        if self.collection:
            return "busy"
        pages = self.draw.choice((0, 1, 5, 16 * self.space.regions)) if pages is None else pages
        condemned = {name for name, level in self.level.items()
                     if self.known.is_condemned(self.objects[name].area, level, what)}
        kept = [name for name in self.level if name not in condemned]
        bound = closure(self.objects, names_in(self.graph.registers) + kept)
        owed = self.space.registers + 256 * pages + sum(self.objects[name].charge for name in condemned)
        self.collection = Collection(what, condemned, bound, owed)
        for area, level in list(self.husks):
            if self.known.is_condemned(area, level, what):
                self.gone[area] = self.gone.get(area, 0) + self.husks.pop((area, level))
        return f"flipped {pages}"

    def scavenge(self, units: int) -> str:
        if not self.collection:
            return "not-flipped"
        self.pay(units)
        return "done" if self.collection.over else "more"

    def reclaim(self) -> str:
        run = self.collection
        if not run or not run.over:
            return "not-done" if run else "not-flipped"
        kept = [name for name in self.level if name not in run.condemned]
        some = [name for name in run.condemned & run.bound if self.draw.random() < 0.3]
        held = closure(self.objects, names_in(self.graph.registers) + kept + some)
        self.level = {name: self.known.survivor_level(run.what, level) if name in run.condemned else level
                      for name, level in self.level.items() if name in held}
        self.collection, self.gone = None, {}
        return "reclaimed"

    def silent_steps(self) -> None:
        if self.collection and self.collection.over:
            self.reclaim()
        levels = enumerate(self.space.capacity, 1)
        full = tuple(level for level, capacity in levels if capacity and self.total(level) >= capacity)
        if full and not self.collection:
            self.flip(full)


def output(data: bytes, seed: int) -> bytes:
    """The replies of one run of a whole input."""
    found = verdict.judge(data)
    run = FreeRun(found.so_far, random.Random(seed))
    return "".join(line + "\n" for command in found.commands for line in run.reply(command)).encode()
