"""Whether an input is one of a grade (docs/ADAPTER.md)."""
from typing import List, NamedTuple, Optional

from .graph import Graph
from .values import World
from .verdict import Command, Verdict

GRADES = ("identity", "space", "phases")
NOT_IDENTITY = ("stats", "grow", "page-out")


class Outside(NamedTuple):
    """A line that a grade doesn't have, and why."""
    line: int
    why: str


def outside(found: Verdict, grade: str) -> Optional[Outside]:
    """The first thing in an input that its grade doesn't have, if anything is."""
    if grade == "phases" or found.world is None:
        return None
    line = 3 + len(found.world.areas)
    if found.world.collects_itself():
        return Outside(line, "has a capacity")
    if grade == "identity":
        area = too_small(found.world, found.commands)
        if area is not None:
            return Outside(3 + area, "has a quota that can refuse an allocation")
    for command, line in zip(found.commands, found.lines):
        if command[0] == "flip" and command[1] != "full":
            return Outside(line, "flips some levels alone")
        if grade == "identity" and command[0] in NOT_IDENTITY:
            return Outside(line, f"has the command {command[0]}")
    return None


def too_small(world: World, commands: List[Command]) -> Optional[int]:
    """The first area whose quota is less than all that is ever allocated in it."""
    wanted, graph = [0] * len(world.areas), Graph(world)
    for one in world.objects:
        wanted[one.area] += one.charge
    for command in commands:
        area, charge = graph.allocation(command) or (0, 0)
        wanted[area] += charge
    return next((at for at, area in enumerate(world.areas) if wanted[at] > area.quota), None)
