"""The sums of charges that the closed parts of some names can have.

A part of the names is closed if it has each of the names to which one of it refers: what a reclaim keeps is such a
part. The names fall into pieces that no reference joins; the sums of each piece are found by themselves, over its
strongly connected components, of which a part has all or nothing.
"""
from typing import Callable, Dict, List, Optional, Set, Tuple

from ..inputs.values import Obj, Ref
from . import sums
from .known import Class

MOST_PARTS = 1500
Edges = Dict[int, List[int]]
Key = Callable[[int], Class]


def sums_by_key(objects: List[Obj], names: Set[int], key: Key) -> Tuple[Dict[Class, int], bool]:
    """For each key the sums of the charges that a closed part has there, and whether that is exact."""
    edges = {n: [value.n for value in objects[n].fields if isinstance(value, Ref) and value.n in names] for n in names}
    found: Dict[Class, int] = {}
    is_exact = True
    for piece in pieces(edges):
        keys = sorted({key(n) for n in piece})
        parts = closed_parts(objects, piece, edges, key, keys)
        is_exact = is_exact and len(keys) == 1 and parts is not None
        for at, one in enumerate(keys):
            if parts is None:
                there = sums.of_any(objects[n].charge for n in piece if key(n) == one)
            else:
                there = sums_of({part[at] for part in parts})
            found[one] = sums.added(found.get(one, sums.ZERO_ALONE), there)
    return found, is_exact


def sums_of(numbers: Set[int]) -> int:
    out = 0
    for n in numbers:
        out |= 1 << n
    return out


def pieces(edges: Edges) -> List[List[int]]:
    """The names in pieces that no reference joins."""
    near: Dict[int, Set[int]] = {n: set(to) for n, to in edges.items()}
    for n, to in edges.items():
        for m in to:
            near[m].add(n)
    seen: Set[int] = set()
    found = []
    for first in sorted(edges):
        if first not in seen:
            piece = [first]
            seen.add(first)
            for n in piece:                             # which grows
                more = near[n] - seen
                seen |= more
                piece += sorted(more)
            found.append(piece)
    return found


def closed_parts(objects: List[Obj], piece: List[int], edges: Edges, key: Key, keys: List[Class]
                 ) -> Optional[Set[Tuple[int, ...]]]:
    """The sums, key by key, of all closed parts of one piece, or None if there are too many."""
    components = strong_components(piece, edges)
    place = {n: at for at, component in enumerate(components) for n in component}
    parts = [(0, (0,) * len(keys))]                     # which components a part has, as bits, and its sums
    for at, component in enumerate(components):
        need = sums_of({place[m] for n in component for m in edges[n] if place[m] != at})
        weights = [sum(objects[n].charge for n in component if key(n) == one) for one in keys]
        if need == 0 and len(parts) * 2 > MOST_PARTS:
            return None
        parts += [(has | 1 << at, tuple(map(sum, zip(total, weights)))) for has, total in parts if has & need == need]
        if len(parts) > MOST_PARTS:
            return None
    return {total for _, total in parts}


def strong_components(piece: List[int], edges: Edges) -> List[List[int]]:
    """The components of names that lead to each other. A component follows the components that it refers to (Tarjan's algorithm,
    without recursion)."""
    search = Search(edges)
    for root in piece:
        if root not in search.index:
            search.walk(root)
    return search.found


class Search:
    """A depth-first search: when each name was first met, the earliest that it leads back to, and what is open."""

    def __init__(self, edges: Edges):
        self.edges = edges
        self.index: Dict[int, int] = {}
        self.low: Dict[int, int] = {}
        self.open: List[int] = []
        self.is_open: Set[int] = set()
        self.found: List[List[int]] = []

    def walk(self, root: int) -> None:
        work = [(root, 0)]
        while work:
            n, at = work.pop()
            if at == 0:
                self.enter(n)
            if at < len(self.edges[n]):
                work.append((n, at + 1))
                if self.edges[n][at] not in self.index:
                    work.append((self.edges[n][at], 0))
            else:
                self.leave(n)

    def enter(self, n: int) -> None:
        self.index[n] = self.low[n] = len(self.index)
        self.open.append(n)
        self.is_open.add(n)

    def leave(self, n: int) -> None:
        """All to which n refers was walked: if nothing earlier is led back to, n closes a component."""
        self.low[n] = min([self.low[n]] + [self.low[m] for m in self.edges[n] if m in self.is_open])
        if self.low[n] != self.index[n]:
            return
        component: List[int] = []
        while not component or component[-1] != n:
            component.append(self.open.pop())
        self.is_open.difference_update(component)
        self.found.append(component)
