"""A drawn SVG read back: its cells, its arrows and its texts, and what is wrong with the arrows.

It knows nothing of the program that drew: only that a word is a group with data-address, a register one with data-register,
folded words one with data-from and data-to, and an arrow a path with data-holder, whose ways are M, H and V.
"""
import re
import xml.etree.ElementTree as ElementTree
from itertools import combinations
from typing import Dict, List, NamedTuple, Tuple

SVG = "{http://www.w3.org/2000/svg}"
NEAR = 0.6                  # what two points may differ by and be the same
CHARACTER, LETTER = 7.25, 9     # the width of a letter of 12 pixels in the widest of the drawing's fonts, and its height

Point = Tuple[float, float]


class Box(NamedTuple):
    left: float
    top: float
    right: float
    bottom: float

    def has_on_edge(self, point: Point) -> bool:
        x, y = point
        is_across = self.left - NEAR <= x <= self.right + NEAR and self.top - NEAR <= y <= self.bottom + NEAR
        nearest = min(abs(x - self.left), abs(x - self.right), abs(y - self.top), abs(y - self.bottom))
        return is_across and nearest <= NEAR

    def is_crossed(self, one: Point, other: Point) -> bool:
        """A straight line between these points runs through the inside."""
        low, high = (min(one[0], other[0]), min(one[1], other[1])), (max(one[0], other[0]), max(one[1], other[1]))
        return low[0] < self.right - NEAR and high[0] > self.left + NEAR and low[1] < self.bottom - NEAR and high[1] > self.top + NEAR


class Arrow(NamedTuple):
    holders: List[str]
    target: int
    points: List[Point]

    @property
    def lines(self) -> List[Tuple[Point, Point]]:
        return [line for line in zip(self.points, self.points[1:]) if line[0] != line[1]]


class Drawing(NamedTuple):
    """Boxes of words by their addresses, of registers by their numbers, of folds by their first and last addresses."""
    words: Dict[int, Box]
    registers: Dict[int, Box]
    folds: Dict[Tuple[int, int], Box]
    objects: Dict[int, Box]
    texts: List[Tuple[str, Box]]
    arrows: List[Arrow]

    @property
    def cells(self) -> List[Box]:
        return [*self.words.values(), *self.registers.values(), *self.folds.values()]

    def text_of(self, address: str) -> str:
        """The texts in the cell of a word."""
        box = self.words[int(address)]
        return " ".join(words for words, place in self.texts if box.top <= place.bottom <= box.bottom and box.left <= (place.left + place.right) / 2 <= box.right)

    def box_of(self, address: int) -> List[Box]:
        """The boxes at which an arrow to an address may end."""
        if address in self.words:
            return [self.words[address]]
        return [box for (low, high), box in self.folds.items() if low <= address <= high]


def number(element: ElementTree.Element, name: str) -> float:
    return float(element.get(name, "0"))


def moved(root: ElementTree.Element) -> None:
    """Takes translations of groups into the places of what they have, so that all places are the drawing's."""
    def move(element: ElementTree.Element, x: float, y: float) -> None:
        found = re.match(r"translate\(([-0-9.]+) ([-0-9.]+)\)", element.get("transform", ""))
        x, y = (x + float(found.group(1)), y + float(found.group(2))) if found else (x, y)
        if element.tag in (SVG + "rect", SVG + "text"):
            element.set("x", str(number(element, "x") + x))
            element.set("y", str(number(element, "y") + y))
        element.set("dx", str(x))
        element.set("dy", str(y))
        for child in element:
            move(child, x, y)
    move(root, 0, 0)


def rectangle(element: ElementTree.Element) -> Box:
    left, top = number(element, "x"), number(element, "y")
    return Box(left, top, left + number(element, "width"), top + number(element, "height"))


def cell_of(group: ElementTree.Element) -> Box:
    """The cell of a group: its rectangle of the class `cell`."""
    return next(rectangle(one) for one in group.iter(SVG + "rect") if "cell" in one.get("class", "").split())


def points_of(element: ElementTree.Element) -> List[Point]:
    """The corners of a path of M, H and V."""
    way, dx, dy = element.get("d", ""), number(element, "dx"), number(element, "dy")
    if not re.fullmatch(r"M[-0-9.]+,[-0-9.]+( [HV][-0-9.]+)+", way):
        raise AssertionError(f"a way that isn't of M, H and V: {way}")
    found: List[Point] = []
    for sign, numbers in re.findall(r"([MHV])([-0-9.,]+)", way):
        values = [float(value) for value in numbers.split(",")]
        x, y = found[-1] if found else (0.0, 0.0)
        found.append((values[0] + dx, values[1] + dy) if sign == "M" else (values[0] + dx, y) if sign == "H" else (x, values[0] + dy))
    return found


def text_box(element: ElementTree.Element, scale: float) -> Box:
    width = CHARACTER * scale * len(element.text or "")
    x, base = number(element, "x"), number(element, "y")
    left = {"end": x - width, "middle": x - width / 2}.get(element.get("text-anchor", ""), x)
    return Box(left, base - LETTER * scale, left + width, base)


def read(svg: str, moment: int = -1, scale: float = 1) -> Drawing:
    """The cells, texts and arrows of a drawing, or of one of its moments; `scale` is 1 for letters of 12 pixels."""
    root = ElementTree.fromstring(svg)
    moved(root)
    if moment >= 0:
        root = [one for one in root.iter(SVG + "g") if one.get("class") == "moment"][moment]
    groups = list(root.iter(SVG + "g"))
    words = {int(one.get("data-address", "")): cell_of(one) for one in groups if one.get("data-address")}
    registers = {int(number): cell_of(one) for one in groups for number in numbers_of(one)}
    folds = {(int(one.get("data-from", "")), int(one.get("data-to", ""))): cell_of(one) for one in groups if one.get("data-from")}
    objects = {int(one.get("data-object", "")): cell_of(one) for one in groups if one.get("data-object")}
    texts = [(one.text or "", text_box(one, scale)) for one in root.iter(SVG + "text")]
    arrows = [Arrow(one.get("data-holder", "").split(), int(one.get("data-target", "-1")), points_of(one))
              for one in root.iter(SVG + "path") if "d-arrow" in one.get("class", "").split()]
    return Drawing(words, registers, folds, objects, texts, arrows)


def numbers_of(group: ElementTree.Element) -> List[str]:
    """The numbers of the registers that a group shows."""
    return re.findall("[0-9]+", group.get("data-register", "") or group.get("data-registers", ""))


# ---------------------------------------------------------------- what is wrong

def wrong_ends(found: Drawing) -> List[str]:
    """Arrows that don't begin at the cell of their holder, or don't end at the cell of their target."""
    wrong = []
    for arrow in found.arrows:
        begins = [found.registers[int(holder[1:])] if holder.startswith("r") else found.words[int(holder)] for holder in arrow.holders]
        if begins and not all(box.has_on_edge(arrow.points[0]) for box in begins):
            wrong.append(f"the arrow of {arrow.holders} begins at {arrow.points[0]}")
        if not any(box.has_on_edge(arrow.points[-1]) for box in found.box_of(arrow.target)):
            wrong.append(f"the arrow of {arrow.holders} to {arrow.target} ends at {arrow.points[-1]}")
    return wrong


def wrong_crossings(found: Drawing) -> List[str]:
    """Arrows that run through a cell or a text."""
    boxes = [("a cell", box) for box in found.cells] + [(f"the text {words!r}", box) for words, box in found.texts]
    return [f"the arrow of {arrow.holders} to {arrow.target} runs through {name} at {box}"
            for arrow in found.arrows for line in arrow.lines for name, box in boxes if box.is_crossed(*line)]


def shared_length(one: Tuple[Point, Point], other: Tuple[Point, Point]) -> float:
    """How long two straight lines lie on one another."""
    for along, across in ((0, 1), (1, 0)):
        if abs(one[0][across] - one[1][across]) < NEAR and abs(other[0][across] - other[1][across]) < NEAR:
            if abs(one[0][across] - other[0][across]) >= NEAR:
                return 0
            spans = [sorted((line[0][along], line[1][along])) for line in (one, other)]
            return min(spans[0][1], spans[1][1]) - max(spans[0][0], spans[1][0])
    return 0


def wrong_overlaps(found: Drawing) -> List[str]:
    """Arrows that lie on one another, though they lead to different cells."""
    return [f"the arrows of {one.holders} and {other.holders} lie on one another" for one, other in combinations(found.arrows, 2)
            if found.box_of(one.target) != found.box_of(other.target) and any(shared_length(a, b) > NEAR for a in one.lines for b in other.lines)]


def wrong(found: Drawing) -> List[str]:
    return wrong_ends(found) + wrong_crossings(found) + wrong_overlaps(found)
