"""What is known of a run whatever its free choices were: the world and the graph of objects."""
from typing import AbstractSet, Dict, FrozenSet, Iterable, List, Set, Tuple

from ..inputs.graph import Graph
from ..inputs.values import Levels, Ref, World
from .reach import closure, names_in

Class = Tuple[int, int]              # an area and a level
Garbage = Tuple[AbstractSet[int], AbstractSet[int]]
Question = FrozenSet[Tuple[Class, FrozenSet[int]]]          # the names of each class
NONE: FrozenSet[int] = frozenset()
ANYWHERE: Class = (-1, 0)            # names of any class
NO_GARBAGE: Garbage = (frozenset(), frozenset())


class Known:
    """The world, the graph, the names by area, the number of the command that is judged, and which relaxations were
    needed, each with the first command that needed it."""

    def __init__(self, world: World):
        self.world, self.space, self.areas = world, world.space, world.areas
        self.graph = Graph(world)
        self.objects = self.graph.objects
        self.number = 0
        self.relaxed: Dict[str, int] = {}
        self.quotas = [area.quota for area in self.areas]
        self.statics = [area.kind == "static" for area in self.areas]
        self.new_levels = [int(area.kind == "ephemeral") for area in self.areas]
        self.capacities = [(level, most) for level, most in enumerate(self.space.capacity, 1) if most]
        self.sums_found: Dict[Tuple[int, Question], Tuple[Dict[Class, int], bool]] = {}     # by closed_parts, at this command
        self.made_found: Dict[int, Dict[Class, FrozenSet[int]]] = {}     # what made_since answered for this number of objects
        self.made_until = -1
        self.references: Dict[int, List[int]] = {}                       # those of garbage
        self.static_garbage: Set[int] = set()
        self.static_references: Set[int] = set()
        self.live: Set[int] = set()                                      # what registers lead to, at the command `live_at`
        self.live_at = -1

    def made_since(self, since: int) -> Dict[Class, FrozenSet[int]]:
        """The names from this one on, by the class in which they were made. Many hypotheses ask the same."""
        if self.made_until != len(self.objects):
            self.made_found, self.made_until = {}, len(self.objects)
        found = self.made_found.get(since)
        if found is None:
            names: List[Set[int]] = [set() for _ in self.areas]
            for name in range(since, len(self.objects)):
                names[self.objects[name].area].add(name)
            found = {(area, self.new_levels[area]): frozenset(there) for area, there in enumerate(names) if there}
            self.made_found[since] = found
        return found

    def reached(self) -> Set[int]:
        """The names to which the registers lead, before this command's effect."""
        if self.live_at != self.number:
            self.live, self.live_at = closure(self.objects, names_in(self.graph.registers)), self.number
        return self.live

    def led_to(self, sources: Iterable[Tuple[Class, AbstractSet[int]]], within: FrozenSet[int], known: Garbage = NO_GARBAGE
               ) -> Tuple[FrozenSet[int], Garbage]:
        """The names of `within` to which registers and the sources lead, which have all that is held but isn't in it.
        And the sources to which no register leads, with what they lead to; some of that may be known."""
        live, (old, led) = self.reached(), known
        garbage: Set[int] = set()
        for (area, _), names in sources:
            if area >= 0 and self.statics[area]:
                self.add_static_garbage(names - live)
            else:
                garbage |= names - live
        led = led | self.garbage_leads_to(garbage - old, within - live - led, self.static_references)
        return within & live | led, (garbage, led)

    def add_static_garbage(self, names: AbstractSet[int]) -> None:
        """Garbage of static areas stays for ever, and so does what it refers to."""
        new = names - self.static_garbage
        if new:
            self.static_garbage |= new
            self.static_references |= self.garbage_refers_to(new)

    def garbage_leads_to(self, garbage: AbstractSet[int], within: AbstractSet[int], also: AbstractSet[int] = NONE) -> Set[int]:
        """The names of `within` to which the garbage leads, or what it refers to also. No register leads to them."""
        found: Set[int] = set()
        if not within:
            return found
        front = (self.garbage_refers_to(garbage) | also) & within
        while front:
            found |= front
            front = (self.garbage_refers_to(front) & within) - found
        return found

    def garbage_refers_to(self, names: AbstractSet[int]) -> Set[int]:
        """The names to which objects refer to which no register leads. Such an object never changes."""
        references, objects = self.references, self.objects
        for name in [name for name in names if name not in references]:
            references[name] = [value.n for value in objects[name].fields if isinstance(value, Ref)]
        return set().union(*[references[name] for name in names])

    def relax(self, how: str) -> None:
        self.relaxed.setdefault(how, self.number)

    def is_condemned(self, area: int, level: int, what: Levels) -> bool:
        """A flip of `what` condemns this level of this area."""
        return not self.statics[area] and (isinstance(what, str) or level in what)

    def survivor_level(self, what: Levels, level: int) -> int:
        """The level to which a survivor of a condemned level is promoted."""
        return level + 1 if what != "full" and level < self.space.levels else 0
