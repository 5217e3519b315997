"""The JSON lines of commands and replies."""
import json
import shutil
import subprocess
import unittest
from typing import Any, List, Tuple

from support import FIRST, run_tool, with_files

DUMPED = (FIRST.data.replace(b"end\n", b"set 0 nil\nflip full\nstats\ndump\nend\n").replace(b"dynamic 6", b"dynamic 60"))
REPLIES = b"""ok
ok
ok
cons
cons
t
ok
nil
ok
wrong-type
ok
flipped 0
area work 12 60
lispm-world 2
space 16 32 8 1 2
end-world
"""


def lines(data: bytes, output: bytes, *words: str) -> Tuple[int, List[Any]]:
    """The status and the JSON lines."""
    with with_files(data) as (path,):
        ended = run_tool("replies", path, "-", *words, given=output)
        return ended.status, [json.loads(line) for line in ended.output.splitlines()]


class Replies(unittest.TestCase):
    def test_each_command_has_its_reply(self) -> None:
        status, found = lines(FIRST.data, FIRST.replies)
        self.assertEqual((status, len(found)), (0, 10))
        self.assertEqual(found[8], {"line": 13, "number": 9, "command": ["cons", 6, "work", 0, 0],
                                    "reply": ["exhausted", "work", 6, 2, 6]})
        self.assertEqual(found[9], {"line": 14, "number": 10, "command": ["car", 7, 0], "reply": "wrong-type"})

    def test_replies_of_several_lines(self) -> None:
        _, found = lines(DUMPED, REPLIES)
        self.assertEqual(found[10]["command"], ["set", 0, "nil"])
        self.assertEqual(found[11], {"line": 16, "number": 12, "command": ["flip", "full"], "reply": ["flipped", 0]})
        self.assertEqual(found[12]["reply"], [["area", "work", 12, 60]])
        self.assertEqual(found[13]["reply"], [["lispm-world", 2], ["space", 16, 32, 8, 1, 2], ["end-world"]])
        _, found = lines(DUMPED, REPLIES[:REPLIES.index(b"lispm")] + b"fault\n")
        self.assertEqual(found[13]["reply"], "fault")

    def test_error_lines(self) -> None:
        data = FIRST.data.replace(b"eq 3 4", b"eq 3")
        status, found = lines(data, b"ok\nok\nok\ncons\ncons\nerror line 10: wrong count\n")
        self.assertEqual((status, found[-1]), (0, {"line": 10, "error": "wrong count"}))
        self.assertEqual([one["reply"] for one in found[4:7]], ["cons", None, None])
        self.assertEqual(lines(data, b"error: no memory\n")[1][-1], {"error": "no memory"})

    def test_comments_are_counted(self) -> None:
        _, found = lines(b"; one\n" + FIRST.data.replace(b"eq 3 4", b"; two\neq 3 x"), b"ok\n" * 5 + b"error line 10: no register\n")
        self.assertEqual(found[5], {"line": 12, "number": 6, "command": ["eq", 3, "x"], "reply": None})
        self.assertEqual(found[-1], {"line": 12, "error": "no register"})

    def test_replies_that_do_not_fit(self) -> None:
        status, found = lines(FIRST.data, FIRST.replies[:9])
        self.assertEqual((status, [one["reply"] for one in found]), (1, ["ok"] * 3 + [None] * 7))
        status, found = lines(FIRST.data, FIRST.replies + b"ok\n")
        self.assertEqual((status, found[-1]), (1, {"rest": ["ok"]}))

    @unittest.skipUnless(shutil.which("jq"), "jq isn't installed")
    def test_with_jq(self) -> None:
        with with_files(FIRST.data) as (path,):
            text = run_tool("replies", path, "-", given=FIRST.replies).output
        ended = subprocess.run(["jq", "-c", 'select(.reply == "wrong-type") | .line'], input=text.encode(), stdout=subprocess.PIPE)
        self.assertEqual(ended.stdout, b"14\n")
