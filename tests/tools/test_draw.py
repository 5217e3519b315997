"""The tool `draw`: complete inputs, the same bytes for a number, and the generated input of `lispm exercise`."""
import hashlib
import unittest
from collections import Counter
from typing import Iterator, Tuple

from support import run_tool, with_files
import free_run
from lib import program
from lib.inputs import drawing, grades, verdict
from lib.judge.judging import judge

# of the inputs 1 to 10 of 400 commands, one after the other
SUMS = {
    "exercise": "21724844a51c2630",
    "identity": "34c6028ee64e0c1f",
    "space": "b0d8dca7cd3a6161",
    "phases": "cd3cc8dcbe6c30d1",
    "large": "51425e812a8236ba",
}


def what(word: str) -> drawing.What:
    if word == "exercise":
        return drawing.What("exercise", 2000)
    return drawing.What(size="large", commands=None) if word == "large" else drawing.What(grade=word)


def counts(replies: bytes) -> str:
    """The summary of an exercise, except the count of commands."""
    heads = [line.split(" ")[0] for line in replies.decode().splitlines()]
    return "".join(f"{word} {heads.count(word)}\n" for word in ("exhausted", "wrong-type", "reclaimed", "fault"))


class Drawn(unittest.TestCase):
    def test_the_same_bytes(self) -> None:
        for word, wanted in SUMS.items():
            total = hashlib.sha256(b"".join(drawing.drawn(number, what(word)) for number in range(1, 11)))
            self.assertEqual(total.hexdigest()[:16], wanted, word)

    def test_the_tool_writes_them(self) -> None:
        ended = run_tool("draw", "--number", "7", "--count", "30", "--grade", "space", "--dump-every", "9")
        self.assertEqual((ended.status, ended.errors), (0, ""))
        self.assertEqual(ended.output.encode(), drawing.drawn(7, drawing.What(commands=30, grade="space", every=9)))

    def test_the_first_of_an_exercise(self) -> None:
        commands = drawing.exercise(1, 3).split("\n")[6:]
        self.assertEqual(commands, ["cons 8 temp 8 6", "cons 0 temp 8 6", "set 8 5", "stats", "end", ""])

    def test_dumps_stand_between_commands(self) -> None:
        plain, dumps = (drawing.exercise(5, 1200, every).split("\n") for every in (0, 7))
        self.assertEqual([line for line in dumps if line != "dump"], plain)
        self.assertEqual(dumps.count("dump"), 1200 // 7)

    def test_no_dumps(self) -> None:
        for size in drawing.SIZES[:2]:
            lines = drawing.drawn(3, drawing.What(every=0, size=size)).split(b"\n")
            self.assertNotIn(b"dump", lines)
            self.assertEqual(len(lines) - lines.index(b"trace") - 3, drawing.COUNT)

    def test_changed_lines(self) -> None:
        """One line of each third input is another one, and most of these inputs are refused."""
        plain, changed = ([drawing.drawn(number, drawing.What(change_every=every)) for number in range(1, 61)] for every in (0, 3))
        differing = [number for number, (one, other) in enumerate(zip(plain, changed), 1) if one != other]
        self.assertLessEqual(set(differing), set(range(3, 61, 3)))
        self.assertGreater(len(differing), 15)
        statuses = Counter(verdict.judge(changed[number - 1]).status for number in differing)
        self.assertGreater(statuses[2], 8)
        self.assertGreater(statuses[0], 0)
        for number in differing:
            one, other = plain[number - 1].split(b"\n"), changed[number - 1].split(b"\n")
            same = next(at for at, pair in enumerate(zip(one, other)) if pair[0] != pair[1])
            self.assertIn(other[same:], (one[same + 1:], [one[same - 1]] + one[same:], [other[same]] + one[same + 1:]), number)

    def test_changed_lines_are_of_wide_inputs(self) -> None:
        self.assertIn("--change-every is for --kind wide", run_tool("draw", "--number", "2", "--kind", "exercise", "--change-every", "2").errors)

    def test_weights(self) -> None:
        with with_files(b"# no lists\nlist 0   # none\n\nsize 40\n") as (path,):
            ended = run_tool("draw", "--number", "2", "--weights", path)
        trace = ended.output.split("\ntrace\n")[1].split("\n")
        counts = Counter(line.split(" ")[0] for line in trace)
        self.assertEqual((ended.status, counts["list"]), (0, 0))
        self.assertGreater(counts["size"], 60)

    def test_wrong_weights(self) -> None:
        for text, cause in ((b"list\n", "line 1: a name and a weight, 0 to 1000, are wanted"),
                            (b"\nlist 1001", "line 2: a name and a weight, 0 to 1000, are wanted")):
            with with_files(text) as (path,):
                ended = run_tool("draw", "--number", "2", "--weights", path)
                self.assertEqual((ended.status, ended.errors), (2, f"draw: {path}: {cause}\n"))
        with with_files(b"nest 3") as (path,):
            self.assertIn("nest: no weight of this size", run_tool("draw", "--number", "2", "--weights", path).errors)
            self.assertEqual(run_tool("draw", "--number", "2", "--weights", path, "--size", "large").status, 0)

    def test_mistakes(self) -> None:
        for words, cause in (("--number -1", "--number is 0 to 4294967295"),
                             ("--number 1 --count 100001", "--count is 0 to 100000"),
                             ("--number 1 --kind exercise --grade space", "--grade is for --kind wide"),
                             ("--number 1 --kind exercise --size large", "--size is for --kind wide"),
                             ("", "the following arguments are required: --number; see draw --help")):
            ended = run_tool("draw", *words.split())
            self.assertEqual((ended.status, ended.output, ended.errors), (2, "", f"draw: {cause}\n"))


class Large(unittest.TestCase):
    def inputs(self, grade: str) -> Iterator[Tuple[int, bytes]]:
        for number in range(1, 9):
            yield number, drawing.drawn(number, drawing.What(commands=None, grade=grade, size="large"))

    def test_each_is_whole_and_of_its_grade(self) -> None:
        for grade in drawing.GRADES:
            for number, data in self.inputs(grade):
                found = verdict.judge(data)
                self.assertEqual(found.status, 0, (grade, number))
                self.assertIsNone(grades.outside(found, grade), (grade, number))

    def test_they_are_large(self) -> None:
        found = [verdict.judge(data) for _, data in self.inputs("phases")]
        commands = [command for one in found for command in one.commands]
        self.assertEqual(max(one.so_far.space.registers for one in found), 256)
        self.assertGreater(min(len(one.so_far.objects) for one in found), 200)
        self.assertGreater(max(len(one.so_far.objects) for one in found), 2000)
        self.assertEqual(max(len(command) - 3 for command in commands if command[0] == "list"), 1024)
        self.assertEqual(max(command[4] for command in commands if command[0] == "make"), 2047)
        self.assertGreater(max(max(one.so_far.space.capacity) for one in found), 10000)

    def test_runs_of_them_are_right(self) -> None:
        for number, data in list(self.inputs("space"))[:2]:
            self.assertIsNone(judge(data, free_run.output(data, number), 0).first)

    def test_huge(self) -> None:
        found = verdict.judge(drawing.drawn(1, drawing.What(commands=None, size="huge")))
        self.assertEqual(found.status, 0)
        self.assertGreaterEqual(len(found.commands), 100000)
        self.assertGreater(len(found.so_far.objects), 3000)


class Wide(unittest.TestCase):
    def inputs(self, grade: str) -> Iterator[Tuple[int, bytes]]:
        for number in range(1, 21):
            yield number, drawing.drawn(number, drawing.What(commands=200, grade=grade))

    def test_each_is_whole_and_has_runs(self) -> None:
        for grade in drawing.GRADES:
            for number, data in self.inputs(grade):
                self.assertEqual(verdict.judge(data).status, 0, (grade, number))
                self.assertIsNone(judge(data, free_run.output(data, number), 0).first, (grade, number))

    def test_the_grades(self) -> None:
        """What a grade leaves out isn't drawn, and an input of identity never refuses an allocation."""
        for number, data in self.inputs("identity"):
            heads = {line.split(b" ")[0] for line in data.split(b"trace\n")[1].split(b"\n")}
            self.assertFalse(heads & {b"stats", b"grow", b"page-out"})
            self.assertNotIn(b"exhausted", free_run.output(data, number))
        for grade in ("identity", "space"):
            for number, data in self.inputs(grade):
                lines = data.split(b"\n")
                self.assertEqual({line for line in lines if line.startswith(b"flip")} - {b"flip full"}, set())
                self.assertFalse([line for line in lines if line.startswith(b"capacity") and line.strip(b"capity 0")])

    def test_they_have_what_they_should(self) -> None:
        """Among a few inputs of the widest grade there are all kinds of lines and the replies of collections."""
        text = b"".join(data + free_run.output(data, number) for number, data in self.inputs("phases"))
        for word in (b"lispm-world 1\n", b" static ", b" dynamic ", b" ephemeral ", b"\nrun ", b"\nblock ",
                     b"\nflip 1,2", b"\ngrow ", b"\npage-out ", b"\nstats\n", b"\nexhausted ", b"\nreclaimed\n",
                     b"\nnot-done\n", b"\nbusy\n", b"\nno-field "):
            self.assertIn(word, text)

    def test_the_largest_world_has_room(self) -> None:
        data = drawing.drawn(2, drawing.What(commands=20000, grade="identity"))
        self.assertLessEqual(int(data.split(b"\n")[1].split(b" ")[1]), 1024)


@unittest.skipUnless(program.is_there("lispm", None), "no program lispm")
class Exercises(unittest.TestCase):
    def test_a_replay_of_it_counts_what_exercise_says(self) -> None:
        lispm = program.find("lispm", None)
        for number, count in ((1, 20000), (4294967295, 3000), (7, 0)):
            said = program.run(lispm, ["exercise", "--number", str(number), "--count", str(count)], b"", 120)
            done = program.replay(lispm, drawing.drawn(number, drawing.What("exercise", count)), 120)
            self.assertEqual(done.status, 0)
            head = f"commands {count}\nreplies {done.output.count(10)}\n"
            self.assertEqual(said.output.decode(), head + counts(done.output))

    def test_the_grades_are_replayed(self) -> None:
        """What grade identity may not see is so: lispm refuses nothing."""
        lispm = program.find("lispm", None)
        for number in range(1, 4):
            data = drawing.drawn(number, drawing.What(grade="identity"))
            done = program.replay(lispm, data, 60)
            self.assertIsNone(judge(data, done.output, done.status).first)
            self.assertNotIn(b"exhausted", done.output)


if __name__ == "__main__":
    unittest.main()
