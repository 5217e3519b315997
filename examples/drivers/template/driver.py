#!/usr/bin/env python3
"""driver.py  a template: answers the input on standard input over a runtime of yours. Grade: identity.

The repository reads worlds, runs commands and writes dumps (tools/lib/drive/adapting.py). Put your runtime's calls in the
place of these methods; objects are Python's own here, and nothing is collected. For the grade space, add `charged`, `husks`,
`grow`, `flip`, `scan` and `reclaim`, which Heap explains.
"""
from typing import Any, List

from lib.drive.adapting import Heap, run
from lib.inputs.values import Obj


class Item:
    """An object: a cons has no code, a block has one. A cell is a cons that `list` made."""

    def __init__(self, area: int, code: Any, is_cell: bool, parts: List[Any]):
        self.area, self.code, self.is_cell, self.parts = area, code, is_cell, parts


class MyHeap(Heap):
    def cons(self, area: int, is_cell: bool, car: Any, cdr: Any) -> Item:
        return Item(area, None, is_cell, [car, cdr])

    def block(self, area: int, code: int, fields: int) -> Item:
        return Item(area, code, False, [None] * fields)

    def look(self, item: Item) -> Obj:
        charge = len(item.parts) + 1 if item.code is not None else 3 if item.is_cell else 2
        return Obj(item.area, charge, item.code, item.parts)

    def read(self, item: Item, part: int) -> Any:
        return item.parts[part]

    def write(self, item: Item, part: int, value: Any) -> None:
        item.parts[part] = value


if __name__ == "__main__":
    run(MyHeap())
