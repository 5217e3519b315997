"""The module beside the built programs: the same bytes and the same status."""
import glob
import os
import random
import unittest
from typing import Iterator, List, Tuple

from support import TOP, WithModule, needs_node, needs_program, read, run_program
from lib.inputs import drawing, session

INPUTS = int(os.environ.get("LISPM_INPUTS", "100"))
# Of each session the machine after at most this many of its commands is compared.
MOMENTS = 40
WHAT = drawing.What(commands=120, every=15)


def spoiled(data: bytes, number: int) -> bytes:
    """An input with a change that most often makes it wrong: a line that is empty, twice there, or has another byte."""
    draw, lines = random.Random(number), data.split(b"\n")
    at = draw.randrange(len(lines))
    byte = bytes([draw.choice(b" 09az#-\r\x80")])
    place = draw.randrange(len(lines[at]) + 1)
    lines[at] = draw.choice((b"", lines[at] + b"\n" + lines[at], lines[at][:place] + byte + lines[at][place + 1:]))
    return b"\n".join(lines)


def examples() -> Iterator[Tuple[str, session.Session]]:
    """The sessions of examples, and those of its tour."""
    paths = glob.glob(os.path.join(TOP, "examples", "*")) + glob.glob(os.path.join(TOP, "examples", "tour", "*", "session"))
    for path in sorted(filter(os.path.isfile, paths)):
        trace = session.parse(read(path))
        if trace.header and trace.header[-1].text == "trace":
            yield os.path.relpath(path, TOP), trace


def moments(count: int) -> List[int]:
    """Numbers of commands up to this count: all of them, or some of many."""
    every = -(-count // MOMENTS)
    return [*range(0, count, every), count] if count else [0]


@needs_node
@needs_program("lispm")
class Lispm(WithModule):
    def compare(self, number: object, given: List[str], data: bytes) -> None:
        with self.subTest(number=number):
            wanted = run_program("lispm", given, data)
            self.assertEqual(self.module.answer("run", given, data), wanted)
            if given == ["replay"]:
                self.assertEqual(self.module.answer("session", given, data), wanted)

    def test_random_inputs(self) -> None:
        """Of all kinds, and half of them spoiled."""
        for number in range(1, INPUTS + 1):
            data = drawing.drawn(number, WHAT)
            self.compare(number, ["replay"], spoiled(data, number) if number % 2 else data)

    def test_random_worlds(self) -> None:
        """The last dump of random inputs, in the modes that read a world file, and what `print` writes in `compile`."""
        for number in range(1, INPUTS // 4 + 1):
            output = run_program("lispm", ["replay"], drawing.drawn(number, WHAT)).output
            world = output[max(0, output.rfind(b"lispm-world ")):]
            for given in (["print"], ["census"], ["why", "--object", str(number % 7)]):
                self.compare(number, given, spoiled(world, number) if number % 3 == 0 else world)
            self.compare(number, ["compile"], run_program("lispm", ["print"], world).output)

    def test_exercises(self) -> None:
        for number in range(1, 6):
            self.compare(number, ["exercise", "--number", str(number), "--count", "3000"], b"")


@needs_node
@needs_program("lispm_inside")
class Inside(WithModule):
    def test_each_prefix_of_the_examples(self) -> None:
        """The machine after each command."""
        found = list(examples())
        self.assertGreater(len(found), 20)
        for name, trace in found:
            for count in moments(len(trace.commands)):
                self.compare(f"{name} {count}", [], trace.cut(count).text())

    def test_random_inputs(self) -> None:
        """With a page call that fails."""
        for number in range(1, INPUTS // 2 + 1):
            data = drawing.drawn(number, WHAT).replace(b"\nend\n", b"\npage-out 4096\nend\n")
            self.compare(str(number), ["--fail", str(number % 20)], data)

    def compare(self, name: str, given: List[str], data: bytes) -> None:
        with self.subTest(name=name):
            self.assertEqual(self.module.answer("inside", given, data), run_program("lispm_inside", given, data))


if __name__ == "__main__":
    unittest.main()
