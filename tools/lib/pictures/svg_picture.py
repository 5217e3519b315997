"""Moments and objects as drawings: web/draw draws them, by node."""
from typing import Any, Dict, List

from . import node, text_picture
from .moments import Moment
from .things import Link, Shown, Thing, Things


def moment_value(moment: Moment) -> Dict[str, Any]:
    return {"number": moment.number, "command": moment.command, "reply": moment.reply, "output": moment.output}


def picture(moments: List[Moment], areas: List[str], has_pages: bool = True, is_beside: bool = False) -> str:
    """A drawing of the moments, one below the other or side by side, with their accounts and pages or without."""
    told = "\n".join(text_picture.picture(moment, areas, 80) for moment in moments)
    return node.draw({"what": "memory", "moments": [moment_value(moment) for moment in moments], "areas": areas, "told": told,
                      "pages": has_pages, "beside": is_beside})


def field_value(value: Shown) -> Dict[str, Any]:
    return {"text": "", "to": value.key} if isinstance(value, Link) else {"text": value}


def object_value(thing: Thing, areas: List[str]) -> Dict[str, Any]:
    """An object as web/draw takes it."""
    kind = "cell" if thing.is_cell else "pair" if thing.code is None else "block"
    return {"address": thing.key, "name": thing.name, "area": areas.index(thing.area), "kind": kind, "code": thing.code,
            "fields": [field_value(value) for value in thing.fields], "held": thing.is_held, "colour": ""}


def objects(found: Things, told: str) -> str:
    """A drawing of the objects, with what it shows in words."""
    areas = sorted({thing.area for thing in found.things})
    roots = [{"number": number, **field_value(value)} for number, value in found.registers]
    return node.draw({"what": "things", "objects": [object_value(thing, areas) for thing in found.things], "roots": roots, "areas": areas, "told": told})
