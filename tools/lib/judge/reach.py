"""What names lead to."""
from typing import Iterable, List, Set

from ..inputs.values import Obj, Ref, Value


def names_in(values: Iterable[Value]) -> List[int]:
    """The names to which the values refer."""
    return [value.n for value in values if isinstance(value, Ref)]


def closure(objects: List[Obj], names: Iterable[int]) -> Set[int]:
    """The names, and all to which they lead."""
    seen = set(names)
    work = list(seen)
    for name in work:                                   # which grows
        for value in objects[name].fields:
            if isinstance(value, Ref) and value.n not in seen:
                seen.add(value.n)
                work.append(value.n)
    return seen
