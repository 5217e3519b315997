"""The lines of a dump."""
from itertools import chain
from typing import Dict, Iterable, List, Tuple

from .graph import Graph
from .values import Obj, Ref, Value, World

LONGEST_RUN = 1024


def lines_of(world: World, graph: Graph) -> List[str]:
    """The dump of a graph in this world."""
    numbers, order = numbered(graph)
    signs = {name: f"#{number}" for number, name in enumerate(order)}
    objects = [graph.objects[name] for name in order]
    roots = [f"root {register} {signs[value.n] if isinstance(value, Ref) else value}"
             for register, value in enumerate(graph.registers) if value is not None]
    return header(world) + object_lines(world, objects, numbers, signs) + roots + ["end-world"]


def header(world: World) -> List[str]:
    """The lines before the objects, which are of format 2."""
    if not world.dump_header:
        space = world.space
        areas = [f"area {area.name} {area.kind} {area.quota}" for area in world.areas]
        sizes = f"space {space.regions} {space.frames} {space.registers} {space.levels} {space.rate}"
        world.dump_header = ["lispm-world 2", sizes, *areas, "capacity " + " ".join(map(str, space.capacity))]
    return world.dump_header


def numbered(graph: Graph) -> Tuple[Dict[int, int], List[int]]:
    """The numbers of the names that are reached, and the names in the order of their numbers: an object that is met
    gets the next number, and the conses along its cdrs the numbers after it."""
    objects = graph.objects
    numbers: Dict[int, int] = {}
    order: List[int] = []
    met = chain((graph.registers,), (objects[name].fields for name in order))     # goes on as the order grows
    for values in met:
        for value in values:
            while isinstance(value, Ref) and value.n not in numbers:
                found = objects[value.n]
                numbers[value.n] = len(order)
                order.append(value.n)
                if found.code is not None:
                    break
                value = found.fields[1]
                if isinstance(value, Ref) and objects[value.n].code is not None:
                    break
    return numbers, order


def shown(values: Iterable[Value], signs: Dict[int, str]) -> str:
    return " ".join([signs[value.n] if isinstance(value, Ref) else "nil" if value is None else str(value) for value in values])


def object_lines(world: World, objects: List[Obj], numbers: Dict[int, int], signs: Dict[int, str]) -> List[str]:
    """The lines of the objects in the order of their numbers, each list of cells as one `run` line."""
    names = [area.name for area in world.areas]
    lines, sizes, next_at = [], groups(objects, numbers), 0
    for at, one in enumerate(objects):
        if at < next_at:
            continue
        if at in sizes:
            next_at = at + sizes[at]
            lines.append(f"run {names[one.area]} {shown([cell.fields[0] for cell in objects[at:next_at]], signs)}")
        elif one.code is None:
            car, cdr = one.fields
            left = signs[car.n] if isinstance(car, Ref) else "nil" if car is None else car
            right = signs[cdr.n] if isinstance(cdr, Ref) else "nil" if cdr is None else cdr
            lines.append(f"cons {names[one.area]} {left} {right}")
        elif one.fields:
            lines.append(f"block {names[one.area]} {one.code} {shown(one.fields, signs)}")
        else:
            lines.append(f"block {names[one.area]} {one.code}")
    return lines


def groups(objects: List[Obj], numbers: Dict[int, int]) -> Dict[int, int]:
    """For the first number of each group of cells its size."""
    sizes = {}
    tails = [at for at, one in enumerate(objects) if one.charge == 3 and one.code is None and one.fields[1] is None]
    for tail in tails:
        first, area = tail, objects[tail].area
        while tail - first + 1 < LONGEST_RUN and first > 0 and leads_on(objects, first - 1, area, numbers):
            first -= 1
        sizes[first] = tail - first + 1
    return sizes


def leads_on(objects: List[Obj], number: int, area: int, numbers: Dict[int, int]) -> bool:
    """The object with a number is a cell of this area whose cdr is the one with the next number."""
    one = objects[number]
    if one.code is not None or one.charge != 3 or one.area != area:
        return False
    cdr = one.fields[1]
    return isinstance(cdr, Ref) and numbers[cdr.n] == number + 1
