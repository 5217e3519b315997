"""Arrows of the drawing, at every step of each session and lesson: one for each reference that a drawn word holds, from the
word that holds it to the word that it names, and none through a cell or a text that it doesn't belong to.

Which references there are is read from lispm_inside's text, and the drawn SVG is read back.
"""
import random
import re
import unittest
from typing import Any, Callable, Dict, Iterator, List, Tuple, Union

import drawing
import support
from drawing import Drawing
from support import has_inside, memory_of, needs_both, needs_node, objects_of, sessions, steps, drawn, Step

from lib.pictures import inside

# Ways in which regions are laid out.
WAYS: List[Dict[str, Any]] = [{}, {"across": 1}, {"across": 2}, {"across": 4}, {"stacked": True}, {"font": 24}]
NUMBER = 16     # the major tag of a number, as a tag
MOST_WORDS, MOST_REGIONS, MOST_OBJECTS = 24, 12, 40
SMALL = """lispm-inside 1
space 16 32 3 1 2
capacity 0
area 0 dynamic quota 9 charged 9
phase idle
left 0
next none
moved none
register 0 020000000
register 1 100000007
register 2 010000000
region 0 area 0 level 0 live used 4 mark 0
word 0 820000002
word 1 c20000000
word 2 900000007
word 3 d10000000
page 0 resident tag no
calls write 0 read 0
end-inside
"""
STEP = Step(1, ["work"], SMALL)


def machine_of(step: Step) -> inside.Machine:
    return support.machine_of(step.output)


def held_references(machine: inside.Machine, found: Drawing) -> List[Tuple[str, int]]:
    """The references and forwards that drawn words and registers hold, from the machine's text."""
    registers = [(f"r{at}", word.address) for at, word in enumerate(machine.registers) if at in found.registers]
    words = [(str(address), word.address) for region in machine.regions for address, word in region.words.items() if address in found.words]
    return sorted((holder, to) for holder, to in registers + words if to is not None)


def drawn_references(found: Drawing) -> List[Tuple[str, int]]:
    return sorted((holder, arrow.target) for arrow in found.arrows for holder in arrow.holders)


def missing_words(machine: inside.Machine, found: Drawing) -> List[int]:
    """Used words of regions that are short enough to be drawn whole, and aren't drawn."""
    regions = [region for region in machine.regions[:MOST_REGIONS] if len(region.words) <= MOST_WORDS]
    return [address for region in regions for address in region.words if address not in found.words]


def unfolded(machine: inside.Machine, found: Drawing) -> List[int]:
    """Words of long regions that are neither drawn nor folded."""
    folded = {at for low, high in found.folds for at in range(low, high + 1)}
    return [address for region in machine.regions[:MOST_REGIONS] for address in region.words if address not in found.words and address not in folded]


def final(machine: inside.Machine, address: int) -> int:
    word = machine.word(address)
    while word is not None and word.is_forward:
        address = word.payload
        word = machine.word(address)
    return address


def graph_references(machine: inside.Machine, found: Drawing) -> List[Tuple[str, int]]:
    """The references that drawn fields and registers hold, followed over forwards."""
    registers = [(f"r{at}", word) for at, word in enumerate(machine.registers)]
    words = [(str(address), word) for region in machine.regions for address, word in region.words.items() if address in found.words]
    return sorted((holder, final(machine, word.payload)) for holder, word in registers + words if word.is_reference)


def as_graph(found: Drawing) -> Drawing:
    """In a graph an arrow ends at the first cell of an object's box."""
    return found._replace(arrows=[arrow for arrow in found.arrows if arrow.holders])


def generated(seed: int) -> Step:
    """A machine that no run need have: random words in some regions, with references to any of them."""
    draw = random.Random(seed)
    used = {number: draw.choice((1, 3, 8, 20, 40, 300)) for number in sorted(draw.sample(range(9), draw.randint(1, 5)))}
    addresses = [4096 * number + at for number, count in used.items() for at in range(count)]
    lines = ["lispm-inside 1", "space 16 32 4 1 2", "capacity 0", "area 0 dynamic quota 9 charged 9", "phase running full", "left 2", "next none", "moved none"]
    lines += [f"register {number} {digits(draw, addresses)}" for number in range(draw.randint(1, 12))]
    for number, count in used.items():
        lines.append(f"region {number} area 0 level 0 {draw.choice(('old', 'live'))} used {count} mark 0")
        lines += [f"word {4096 * number + at} {digits(draw, addresses)}{draw.choice(('', ' left'))}" for at in range(count)]
    return Step(seed, ["work"], "\n".join(lines + ["calls write 0 read 0", "end-inside"]) + "\n")


def digits(draw: random.Random, addresses: List[int]) -> str:
    """A random word: a number, nil, or a reference or a forward to some address."""
    code, tag = draw.choice((0, 1, 2, 3)), draw.choice((NUMBER, 1, 2, 2, 2, 3, 5, 6))
    payload = draw.randint(0, 999) if tag == NUMBER else 0 if tag == 1 else draw.choice(addresses)
    return f"{code << 34 | tag << 28 | payload:09x}"


@needs_node
class Generated(unittest.TestCase):
    """Machines with random words: more arrows than any session has."""

    def test_memory(self) -> None:
        found = [generated(seed) for seed in range(60)]
        for step, svg in zip(found, drawn([memory_of(step, **WAYS[step.number % len(WAYS)]) for step in found])):
            scale = WAYS[step.number % len(WAYS)].get("font", 12) / 12
            machine, read = machine_of(step), drawing.read(svg, scale=scale)
            self.assertEqual(drawn_references(read), held_references(machine, read), step.number)
            self.assertEqual(drawing.wrong(read), [], step.number)
            self.assertEqual((missing_words(machine, read), unfolded(machine, read)), ([], []), step.number)

    def test_moments_side_by_side(self) -> None:
        """Two moments in one drawing: each reference of each has its arrow, and none runs into the other."""
        for seed in range(10):
            steps_ = [generated(seed), generated(seed + 100)]
            moments = [{"number": step.number, "command": "", "reply": [], "output": step.output} for step in steps_]
            svg = drawn([{"what": "memory", "moments": moments, "areas": ["work"], "pages": False, "beside": True}])[0]
            for index, step in enumerate(steps_):
                read = drawing.read(svg, index)
                self.assertEqual(drawn_references(read), held_references(machine_of(step), read), seed)
                self.assertEqual(drawing.wrong(read), [], seed)


@needs_node
class GeneratedObjects(unittest.TestCase):
    """Objects with random references, among them to cells in the middle of a compact list."""

    def test_objects(self) -> None:
        found = [generated_objects(seed) for seed in range(60)]
        for step, svg in zip(found, drawn([objects_of(step) for step in found])):
            machine, read = machine_of(step), drawing.read(svg)
            self.assertEqual(drawing.wrong(read), [], step.number)
            wanted = [(holder, to) for holder, to in graph_references(machine, read) if to in read.words]
            self.assertEqual(drawn_references(as_graph(read)), wanted, step.number)
            self.assertEqual([to for to in reached(machine) if to not in read.words], [], step.number)


def generated_objects(seed: int) -> Step:
    """Pairs, cells in runs, and blocks, whose fields refer to any of them."""
    draw = random.Random(seed)
    words: List = []        # the cdr code of each word, or a header with its number of fields
    starts: List[Tuple[int, int]] = []      # the beginnings of objects, and the tag of references to them
    for _ in range(draw.randint(1, 9)):
        kind, count = draw.choice(("pair", "run", "run", "block")), draw.randint(1, 5)
        starts += [(len(words) + at, 2) for at in range(count if kind == "run" else 1)] if kind != "block" else [(len(words), 3)]
        bodies: Dict[str, List] = {"pair": [2, 3], "run": [0] * (count - 1) + [1], "block": [("header", count)] + [0] * count}
        words += bodies[kind]

    def bits(code: Union[int, Tuple[str, int]]) -> int:
        if isinstance(code, tuple):
            return 4 << 28 | 9 << 11 | code[1]
        target, tag = draw.choice(starts)
        value = draw.choice((1 << 28, 1 << 32 | 7, tag << 28 | target, tag << 28 | target))
        return code << 34 | value
    lines = ["lispm-inside 1", "space 16 32 4 1 2", "capacity 0", "area 0 dynamic quota 99 charged 9", "phase idle", "left 0", "next none", "moved none"]
    lines += [f"register {number} {tag << 28 | to:09x}" for number, (to, tag) in enumerate(draw.choices(starts, k=draw.randint(1, 6)))]
    lines += [f"region 0 area 0 level 0 live used {len(words)} mark 0", *(f"word {at} {bits(code):09x}" for at, code in enumerate(words))]
    return Step(seed, ["work"], "\n".join(lines + ["calls write 0 read 0", "end-inside"]) + "\n")


@needs_both
class EveryStep(unittest.TestCase):
    steps: Dict[str, List[Step]]

    @classmethod
    def setUpClass(cls) -> None:
        cls.steps = {name: steps(path) for name, path in sessions().items()} if has_inside else {}

    def each(self, draws: Callable[[Step], Dict[str, Any]]) -> Iterator[Tuple[str, inside.Machine, Drawing]]:
        """Each moment: its name, its machine, and its drawing."""
        found = [(name, step) for name, steps_ in self.steps.items() for step in steps_]
        for (name, step), svg in zip(found, drawn([draws(step) for _, step in found])):
            yield f"{name} after command {step.number}", machine_of(step), drawing.read(svg)

    def test_there_are_sessions(self) -> None:
        self.assertGreaterEqual(len(self.steps), 24)
        self.assertGreater(sum(len(found) for found in self.steps.values()), 300)

    def test_memory(self) -> None:
        for where, machine, found in self.each(memory_of):
            self.assertEqual(drawn_references(found), held_references(machine, found), where)
            self.assertEqual(drawing.wrong(found), [], where)
            self.assertEqual((missing_words(machine, found), unfolded(machine, found)), ([], []), where)
            registers = [at for at, word in enumerate(machine.registers) if word.tag != "nil"]
            self.assertEqual([at for at in registers if at not in found.registers], [], where)

    def test_objects(self) -> None:
        for where, machine, found in self.each(objects_of):
            self.assertEqual(drawing.wrong(found), [], where)
            wanted = [(holder, to) for holder, to in graph_references(machine, found) if to in found.words]
            self.assertEqual(drawn_references(as_graph(found)), wanted, where)
            self.assertEqual([arrow for arrow in wanted_only(machine, found) if f"\u2192 {arrow[1]}" not in found.text_of(arrow[0])], [], where)
            if len(found.objects) < MOST_OBJECTS:
                self.assertEqual([to for to in reached(machine) if to not in found.words], [], where)


def wanted_only(machine: inside.Machine, found: Drawing) -> List[Tuple[str, int]]:
    """References of drawn fields to objects that aren't drawn: their addresses are written."""
    return [(holder, to) for holder, to in graph_references(machine, found) if to not in found.words and not holder.startswith("r")]


def reached(machine: inside.Machine) -> List[int]:
    """The addresses of the objects that registers refer to."""
    return [final(machine, word.payload) for word in machine.registers if word.is_reference]


@needs_node
class Planted(unittest.TestCase):
    """A drawing that is spoilt on purpose is found to be wrong."""

    def setUp(self) -> None:
        self.svg = drawn([memory_of(STEP)])[0]
        self.good = drawing.read(self.svg)

    def spoilt(self, before: str, after: str) -> Drawing:
        svg = re.sub(before, after, self.svg, count=1)
        self.assertNotEqual(svg, self.svg)
        return drawing.read(svg)

    def test_the_drawing_itself_is_right(self) -> None:
        self.assertEqual(drawing.wrong(self.good), [])
        self.assertEqual(drawn_references(self.good), [("0", 2), ("1", 0), ("r0", 0)])
        self.assertEqual(held_references(machine_of(STEP), self.good), [("0", 2), ("1", 0), ("r0", 0)])

    def test_an_arrow_that_is_missing(self) -> None:
        found = self.spoilt(r'<path class="d-arrow reference"[^>]*/>', "")
        self.assertNotEqual(drawn_references(found), held_references(machine_of(STEP), found))

    def test_an_arrow_to_another_word(self) -> None:
        found = self.spoilt('data-target="2"', 'data-target="3"')
        self.assertEqual([words for words in drawing.wrong(found) if "to 3 ends at" in words], drawing.wrong_ends(found))
        self.assertNotEqual(drawing.wrong_ends(found), [])

    def test_an_arrow_from_another_word(self) -> None:
        self.assertNotEqual(drawing.wrong_ends(self.spoilt('data-holder="0"', 'data-holder="3"')), [])

    def test_an_arrow_through_a_cell(self) -> None:
        box = self.good.words[3]
        found = self.spoilt('(<path class="d-arrow root" d="M[^ ]+ )', rf"\1H{(box.left + box.right) / 2} V{box.bottom + 5} ")
        self.assertIn("runs through a cell", " ".join(drawing.wrong(found)))

    def test_arrows_on_one_another(self) -> None:
        arrow = next(one for one in self.good.arrows if one.target == 2)
        found = self.good._replace(arrows=[*self.good.arrows, arrow._replace(target=3)])
        self.assertNotEqual(drawing.wrong_overlaps(found), [])


if __name__ == "__main__":
    unittest.main()
