"""accounts and plot: a line for each command that says what the program says, a drawing of it, and mistakes in a line."""
import csv
import os
import re
import tempfile
import unittest

from support import example, has_inside, inside_lines, needs_inside, needs_lispm, parsed, replies, tool

COLLECTION = example("collection")
HEAD = "number,line,command,reply,phase,left,written,read,scanned,reached,work,work quota\n"
ROWS = HEAD + "1,6,set 0 1,ok,not-flipped,0,0,0,0,0,0,4\n2,7,flip full,flipped 0,more,8,0,0,0,0,0,4\n"


def rows(*words: str) -> list:
    ended = tool("accounts", *words)
    assert ended.status == 0, ended.errors
    return list(csv.DictReader(ended.output.decode().splitlines()))


def has_matplotlib() -> bool:
    return tool("plot", "-o", os.devnull + ".svg", given=ROWS.encode()).status != 69


class Accounts(unittest.TestCase):
    @needs_inside
    def test_a_collection(self) -> None:
        found = rows(COLLECTION)
        self.assertEqual([row["phase"] for row in found], ["not-flipped"] * 4 + ["more"] * 4 + ["done"] + ["not-flipped"] * 3)
        self.assertEqual([int(row["work"]) for row in found], [0, 2, 4, 4, 4, 4, 4, 4, 4, 2, 2, 4])
        self.assertEqual([int(row["left"]) for row in found[4:9]], [8, 10, 10, 7, 0])

    @needs_lispm
    def test_replies_are_those_of_the_program(self) -> None:
        for name in ("collection", "levels", "capacity", "quota", "growth"):
            trace = parsed(example(name))
            wanted = [(str(answer.command.number), answer.command.text, answer.lines[0]) for answer in replies(trace)]
            found = [(row["number"], row["command"], row["reply"]) for row in rows("--no-machine", example(name))]
            self.assertEqual(found, wanted)

    @needs_lispm
    def test_accounts_are_those_that_stats_tells(self) -> None:
        trace = parsed(example("levels"))
        for answer, row in zip(replies(trace), rows("--no-machine", example("levels"))):
            if answer.command.text == "stats":
                self.assertEqual(answer.lines, [f"area pool {row['pool']} {row['pool quota']}"])

    @needs_inside
    def test_units_and_page_calls_are_those_of_the_machine(self) -> None:
        trace, calls = parsed(example("references")), set()
        for row in rows(example("references")):
            lines = inside_lines(trace, int(row["number"]))
            self.assertIn(f"left {row['left']}", lines)
            self.assertIn(f"calls write {row['written']} read {row['read']}", lines)
            calls.add((row["written"], row["read"]))
        self.assertGreater(len(calls), 1)

    @needs_inside
    def test_pauses_and_what_is_reached(self) -> None:
        found = rows(COLLECTION)
        self.assertEqual([int(row["scanned"]) for row in found], [0] * 7 + [3, 7, 0, 0, 0])
        self.assertEqual([int(row["reached"]) for row in found], [0, 2, 2, 2, 2, 2, 2, 2, 2, 2, 2, 4])

    @needs_inside
    def test_units_are_all_scanned(self) -> None:
        """Units at the flip and words placed during a collection are scanned, each once."""
        for name in ("capacity", "levels", "collection"):
            trace, found = parsed(example(name)), rows(example(name))
            for row in found:
                words = row["command"].split(" ")
                if words[0] == "scavenge" and row["reply"] == "more":
                    self.assertEqual(row["scanned"], words[1], f"{name}: {row['command']}")
            self.assertEqual(len(found), len(trace.commands))

    @needs_lispm
    def test_columns_are_empty_without_the_machine(self) -> None:
        found = tool("accounts", COLLECTION, LISPM_INSIDE="/nowhere/inside").output
        self.assertEqual(found, tool("accounts", "--no-machine", COLLECTION).output)
        self.assertIn(b"\n5,14,flip full,flipped 0,more,,,,,,4,4\n", found)

    @needs_lispm
    def test_mistakes(self) -> None:
        found = tool("accounts", "-", given=b"lispm-world 1\nspace 16 32 8 1 2\narea work dynamic 4\ntrace\nset 0 1\nconz\nend\n")
        self.assertEqual((found.status, found.errors), (1, "accounts: error line 6: unknown command\n"))
        self.assertEqual(tool("accounts", "/no/file").status, 2)
        self.assertEqual(tool("accounts", COLLECTION, LISPM="/nowhere/lispm").status, 69)


@unittest.skipUnless(has_matplotlib(), "matplotlib isn't there: apt-get install python3-matplotlib")
class Plot(unittest.TestCase):
    def drawn(self, name: str, data: bytes) -> bytes:
        with tempfile.TemporaryDirectory() as folder:
            path = os.path.join(folder, name)
            ended = tool("plot", "-o", path, given=data)
            self.assertEqual((ended.status, ended.errors), (0, ""))
            with open(path, "rb") as file:
                return file.read()

    def test_a_drawing_has_its_curves(self) -> None:
        drawing = self.drawn("a.svg", ROWS.encode()).decode()
        self.assertEqual([label for label in ("work", "quota of work", "not yet scanned", "words reached by registers", "written", "read") if f"<!-- {label} -->" not in drawing], [])

    def test_a_collection_is_a_band(self) -> None:
        one = self.drawn("a.svg", ROWS.encode()).decode()
        none = self.drawn("a.svg", ROWS.replace("more,8", "not-flipped,8").encode()).decode()
        bands = [len(re.findall("fill: #dddddd", drawing)) for drawing in (one, none)]
        self.assertEqual(bands, [3, 0])

    def test_a_png(self) -> None:
        self.assertTrue(self.drawn("a.png", ROWS.replace("0,0,0,0,0,", ",,,,,").encode()).startswith(b"\x89PNG"))

    @needs_lispm
    def test_what_accounts_writes(self) -> None:
        self.assertIn(b"</svg>", self.drawn("a.svg", tool("accounts", *([] if has_inside else ["--no-machine"]), example("capacity")).output))

    def test_mistakes(self) -> None:
        wanted = {("-o", "a.gif"): "plot: a.gif: the name has to end in .svg, .png or .pdf\n",
                  ("-o", "/no/folder/a.svg"): "plot: /no/folder/a.svg: No such file or directory\n",
                  ("/no/file",): "plot: /no/file: No such file or directory\n"}
        for words, cause in wanted.items():
            found = tool("plot", *words, given=ROWS.encode())
            self.assertEqual((found.status, found.errors), (2, cause))
        found = tool("plot", given=b"lispm-world 1\n")
        self.assertEqual((found.status, found.errors), (2, "plot: -: not what tools/accounts writes\n"))
        found = tool("plot", given=HEAD.encode())
        self.assertEqual((found.status, found.errors), (2, "plot: -: no commands\n"))
        found = tool("plot", given=(HEAD + "1,6,set 0 1,ok\n").encode())
        self.assertEqual((found.status, found.errors), (2, "plot: -: line 2: not what tools/accounts writes\n"))


class NoLibrary(unittest.TestCase):
    def test_it_is_named(self) -> None:
        """A module that hides matplotlib, and the mark that the system's Python was tried."""
        with tempfile.TemporaryDirectory() as folder:
            hiding = ("from importlib.machinery import PathFinder\nfound = PathFinder.find_spec\n"
                      "PathFinder.find_spec = lambda name, *more: None if name == 'matplotlib' else found(name, *more)\n")
            with open(os.path.join(folder, "sitecustomize.py"), "w") as file:
                file.write(hiding)
            found = tool("plot", given=ROWS.encode(), PYTHONPATH=folder, LISPM_TOOL_PYTHON="system")
        self.assertEqual((found.status, found.errors), (69, "plot: needs matplotlib: apt-get install python3-matplotlib\n"))


if __name__ == "__main__":
    unittest.main()
