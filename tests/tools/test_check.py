"""The checker: it agrees with lispm on number and reason, and shows the word, its column and what is expected."""
import os
import random
import unittest
from typing import NamedTuple

from support import FIRST, FOLDER, SESSIONS, TOP, read, run_tool
from lib import program
from lib.inputs import columns, hints, sexprs, verdict

HEAD = "lispm-world 1\nspace 16 32 8 2 2\narea work dynamic 60\narea temp ephemeral 60\n"
HEAD_2 = HEAD.replace("world 1", "world 2") + "capacity 0 0\n"


class Refused(NamedTuple):
    """An input, its error line, the column and the piece under the carets, and a part of the message."""
    text: str
    error: str
    column: int
    piece: str
    told: str


def command(line: str, reason: str, column: int, piece: str, told: str) -> Refused:
    """A line of the trace that is refused."""
    return Refused(f"{HEAD}trace\n{line}\nend\n", f"error line 6: {reason}", column, piece, told)


def world_line(line: str, reason: str, column: int, piece: str, told: str) -> Refused:
    return Refused(f"{HEAD}{line}\ntrace\nend\n", f"error line 5: {reason}", column, piece, told)


WRONG_WORDS = [
    command("conz 1 work 0 0", "unknown command", 1, "conz", "expected: cons R AREA S T"),
    command("quit", "unknown command", 1, "quit", "the commands are set, move"),
    command("SET 1 0", "unknown command", 1, "SET", "expected: set R V"),
    command("car 1 8", "no register", 7, "8", "a register, 0 to 7"),
    command("cons 1 wrk 0 0", "no area", 8, "wrk", "an area: work, temp"),
    command("list 1 temp 0 1 2 9 3", "no register", 19, "9", "0 to 7"),
    command("cons 1 work 0", "wrong count", 15, "", "cons R AREA S T"),
    command("car 1 2 3", "wrong count", 9, "3", "car R S"),
    command("list 1 work", "wrong count", 13, "", "list R AREA S .."),
    command("set 0 2147483648", "bad value", 7, "2147483648", "-2147483648 to 2147483647"),
    command("set 0 #0", "bad value", 7, "#0", "nil, or an integer"),
    command("make 1 work 65536 0", "bad number", 13, "65536", "0 to 65535"),
    command("make 1 work 0 2048", "bad number", 15, "2048", "0 to 2047"),
    command("scavenge 01", "bad number", 10, "01", "0 to 4294967295"),
    command("flip 2,1", "bad levels", 6, "2,1", "levels from 1 to 2"),
    command("set  0 5", "bad line", 5, " ", "one space"),
    command(" set 0 5", "bad line", 1, " ", "begins the line"),
    command("set 0 5 ", "bad line", 8, " ", "ends the line"),
    command("set\t0 5", "bad line", 4, "\\t", "a tab"),
    command("", "bad line", 1, "", "the line is empty"),
    command("set 0 \xe9", "bad line", 7, "\\xe9", "the byte 233"),
    command("dump\r", "bad line", 5, "\\r", "a carriage return"),
    command("end x", "wrong count", 5, "x", "expected: end"),
    command("list 0 work" + " 0" * 1025, "too many items", 2061, "0", "1,024 items"),
    world_line("cons work 1 2 3", "wrong count", 15, "3", "cons AREA V V"),
    world_line("cons work 1 x", "bad value", 13, "x", "#K"),
    world_line("root 8 nil", "no register", 6, "8", "0 to 7"),
    world_line("root 0 #0", "no object 0", 8, "#0", "there are no objects"),
    world_line("area work dynamic 6", "area twice", 6, "work", "a new name"),
    world_line("area b fixed 6", "bad kind", 8, "fixed", "static, dynamic or ephemeral"),
    world_line("area B static 6", "bad name", 6, "B", "a letter a to z"),
    world_line("run work 1 2", "unexpected line", 1, "run", "area, cons, block, root, trace"),
    world_line("set 0 1", "unexpected line", 1, "set", "trace is missing before"),
    world_line("end-world", "unexpected line", 1, "end-world", "ends a world file"),
    world_line("area b static 10000", "space too small", 1, "area b", "need 30 regions, and the space line has 16"),
    world_line("block work 1" + " nil" * 60, "exhausted work 0 61 60", 1, "block work 1", "a quota of 61 for the area work"),
    Refused("lispm-world 1\nspace 5 32 8 1 2\narea work dynamic 1025\n", "error line 3: space too small", 1, "area work",
            "a quota of 1024 is possible here"),
    Refused(HEAD + "cons work 1 #7\ntrace\nend\n", "error line 6: no object 7", 1, "trace",
            "line 5 refers to #7, and there is one object, #0"),
    Refused(HEAD_2.replace("capacity 0 0", "trace"), "error line 5: capacity expected", 1, "trace", "2 numbers"),
    Refused("lispm-world 3\n", "error line 1: not a world", 13, "3", "lispm-world 1 or lispm-world 2"),
    Refused("", "error line 1: not a world", 1, "", "lispm-world 1"),
    Refused("lispm-world 1\narea work dynamic 6\n", "error line 2: space expected", 1, "area", "space REGIONS FRAMES"),
    Refused("lispm-world 1\nspace 4 32 8 1 2\n", "error line 2: bad number", 7, "4", "5 to 1024"),
    Refused("lispm-world 1\nspace 16 32 8 1 2\ntrace\n", "error line 3: area expected", 1, "trace", "area NAME KIND QUOTA"),
    Refused(HEAD + "trace\nend\nstats\n", "error line 7: text after end", 1, "stats", "follow the line feed of end"),
    Refused(HEAD + "trace\n" + "a" * 40000, "error line 6: line too long", 32769, "a", "this one has 40,000"),
]


class WrongWords(unittest.TestCase):
    def test_column_and_piece(self) -> None:
        for wrong in WRONG_WORDS:
            with self.subTest(wrong.error):
                data = wrong.text.encode("latin-1")
                found, lines = verdict.judge(data), verdict.lines_of(data)
                self.assertEqual(found.error(), wrong.error)
                line = lines[found.line - 1]
                where = columns.span(found, line)
                self.assertEqual(where.column, wrong.column, line[:80])
                shown, carets = columns.pointed(line, where).split("\n")
                self.assertEqual(shown[carets.find("^"):][:len(wrong.piece)], wrong.piece)
                self.assertLess(len(shown), 100)
                self.assertIn(wrong.told, hints.expected(found, lines))

    def test_no_end(self) -> None:
        for text in (HEAD + "trace\nset 0 5\n", HEAD):
            ended = run_tool("check", "-", given=text.encode())
            self.assertEqual(ended.status, 1)
            self.assertIn("no end\nend has to be the last line", ended.output)


class Agreement(unittest.TestCase):
    def test_sessions(self) -> None:
        """The verdict on each session has lispm's error line and status."""
        for name in SESSIONS:
            found, output = verdict.judge(read(name, "in")), read(name, "out").decode("latin-1").split("\n")
            told = [line for line in output if line.startswith("error")]
            self.assertEqual((found.error(), found.status), (told[0] if told else None, int(read(name, "status"))), name)


SEXPR = "sexpr-world 1\nspace 16 32 8 1 2\narea work dynamic 100\ncapacity 0\nroot 0 #0=work(1 . #0#)\nroot 2 work[4 work{9\n  5}]\nend-sexpr\n"
WRONG_SEXPRS = [
    ("work{9\n  5}", "(4\n 5)", "error line 6: bad token", 15, "(", "such as work( for a list"),
    ("#0#", "x", "error line 5: bad token", 20, "x", "a piece is root, end-sexpr"),
    ("1 . #0#", "", "error line 5: bad form", 16, ")", "expected: nil, an integer, #K# or a form"),
    ("#0#)", "#0# 2)", "error line 5: bad form", 24, "2", "expected: )"),
    ("#0=work(", "#0=5 work(", "error line 5: bad form", 11, "5", "a form has to follow a label"),
    ("root 2", "root 8", "error line 6: no register", 6, "8", "expected: a register, 0 to 7"),
    ("root 2", "root 0", "error line 6: register twice", 6, "0", "a register without a root before"),
    ("work[", "b[", "error line 6: no area", 8, "b[", "expected: an area: work"),
    ("{9", "{65536", "error line 6: bad number", 20, "65536", "a code, 0 to 65535"),
    ("5}]", "#0=work(5)}]", "error line 7: label twice", 3, "#0=", "a label that wasn't used"),
    ("5}]", "#4#}]", "error line 7: no label 4", 3, "#4#", "such as #0#"),
    ("end-sexpr\n", "end-sexpr\n7", "error line 9: text after end", 1, "7", "nothing may follow"),
    ("5}]\nend-sexpr\n", "5}", "error line 8: no end", 0, "", "or ] may follow"),
    ("capacity 0\n", "", "error line 4: capacity expected", 0, "", "a header is the lines"),
]


class Sexprs(unittest.TestCase):
    def test_a_whole_text(self) -> None:
        ended = run_tool("check", "-", given=SEXPR.encode())
        self.assertEqual((ended.status, ended.output), (0, "whole: S-expressions, which `lispm compile` takes\n"))

    def test_what_is_refused(self) -> None:
        for old, new, error, column, piece, told in WRONG_SEXPRS:
            with self.subTest(error):
                self.assertIn(old, SEXPR)
                text = SEXPR.replace(old, new, 1)
                ended = run_tool("check", "-", given=text.encode())
                lines = ended.output.splitlines()
                self.assertEqual((ended.status, lines[0]), (1, error))
                self.assertIn(told, lines[-1])
                if column:
                    self.assertEqual(lines[1].rpartition(" ")[2], str(column))
                    self.assertEqual(lines[2][lines[3].find("^"):][:len(piece)], piece)

    def test_sessions(self) -> None:
        """The verdict on each text that is compiled has lispm's error line and status."""
        names = [name for name in sorted(os.listdir(FOLDER)) if read(name, "words").split() == [b"compile"]]
        self.assertGreater(len(names), 4)
        for name in names:
            self.compare(read(name, "in"), read(name, "out"), int(read(name, "status")))

    def compare(self, data: bytes, output: bytes, status: int) -> None:
        found = sexprs.judge(data)
        told = [line for line in output.decode("latin-1").split("\n") if line.startswith("error")]
        self.assertEqual((found.error(), found.status), (told[0] if told else None, status), data)

    @unittest.skipUnless(program.is_there("lispm", None), "no program lispm")
    def test_the_verdict_is_its_own(self) -> None:
        """Texts with a piece left out or put in: lispm says the same of each."""
        lispm, draw = program.find("lispm", None), random.Random(1)
        pieces = ["(", ")", "]", "{", "=", "#", " ", "\n", " . ", "nil", "-1", "#0=", "#1#", "work(", "root 1 ", "end-sexpr", "\t", "x("]
        for _ in range(150):
            at, end = sorted(draw.randrange(len(SEXPR)) for _ in range(2))
            text = SEXPR[:at] + draw.choice(pieces) + SEXPR[draw.choice((at, at + 1, min(end, at + 6))):]
            ended = program.run(lispm, ["compile"], text.encode())
            self.compare(text.encode(), ended.output, ended.status)


class TheTool(unittest.TestCase):
    def test_whole(self) -> None:
        ended = run_tool("check", "-", given=FIRST.data)
        self.assertEqual((ended.status, ended.output, ended.errors), (0, "whole: 1 area, 0 objects, 10 commands\n", ""))

    def test_a_wrong_word(self) -> None:
        ended = run_tool("check", "-", given=FIRST.data.replace(b"car 3 2", b"car 3 two"))
        self.assertEqual(ended.output, "error line 8: no register\nline 8, column 7\n    car 3 two\n          ^^^\n"
                         "expected: a register, 0 to 7\n")
        self.assertEqual(ended.status, 1)

    def test_carriage_returns(self) -> None:
        ended = run_tool("check", "-", given=FIRST.data.replace(b"\n", b"\r\n"))
        self.assertEqual((ended.status, ended.output.split("\n")[0]), (1, "error line 1: not a world"))
        self.assertIn("line 1 ends in a carriage return (15 of 15 lines do)", ended.output)
        self.assertIn("line 1, column 14\n", ended.output)
        ended = run_tool("check", "-", given=FIRST.data.replace(b"5 1\n", b"5 1\r\n"))
        self.assertIn("line 12 ends in a carriage return (1 of 15 lines do)", ended.output)

    def test_byte_order_marks(self) -> None:
        for mark, told in ((b"\xef\xbb\xbf", "byte order mark, three bytes"), (b"\xff\xfe", "byte order mark of UTF-16")):
            ended = run_tool("check", "-", given=mark + FIRST.data)
            self.assertEqual((ended.status, ended.output.split("\n")[0]), (1, "error line 1: not a world"))
            self.assertIn(told, ended.output)

    def test_commented_sessions(self) -> None:
        ended = run_tool("check", f"{TOP}/examples/identity")
        self.assertEqual((ended.status, ended.output.split("\n")[0]), (1, "error line 1: not a world"))
        self.assertIn("a commented session isn't an input; `examples/show --plain NAME` writes its input, which is whole",
                      ended.output)
        ended = run_tool("check", "-", given=b"; one\n" + FIRST.data.replace(b"cons 1", b"conz 1"))
        self.assertIn("of which lispm writes error line 6: unknown command", ended.output)
