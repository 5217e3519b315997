"""The calls of web/machine.mjs."""
import os
import re
import subprocess
import unittest

from support import TOP, WEB, Answer, WithModule, answer_of, cases, needs_node, read

SMALLEST = b"lispm-world 1\nspace 16 32 8 1 2\narea work dynamic 100\ntrace\nset 0 5\ncons 1 work 0 0\ncar 2 1\nend\n"
FOLDERS = [os.path.join(TOP, "tests", "sessions"), *filter(None, os.environ.get("LISPM_CASES", "").split(":"))]
# Names of the types that a page may use, and what has them.
NAMES = """import { load } from "./machine.mjs";
const machine = await load();
const has = (one, names) => names.forEach((name) => { if (typeof one[name] !== "function") throw new Error(name); });
has(machine, MACHINE);
has(machine.session(), SESSION);
console.log(machine.version());
"""


@needs_node
class Calls(WithModule):
    def test_cases(self) -> None:
        """Each case of tests/sessions and of $LISPM_CASES."""
        for folder in FOLDERS:
            found = list(cases(folder))
            self.assertTrue(found, folder)
            for case in found:
                self.check(case)

    def test_a_session_answers_each_line(self) -> None:
        answers = [answer_of(told) for told in self.module.ask("split", [], SMALLEST)]
        self.assertEqual(answers, [Answer(0, text) for text in [b""] * 4 + [b"ok\n", b"ok\n", b"5\n", b"", b""]])

    def test_a_stopped_session_answers_nothing(self) -> None:
        data = SMALLEST.replace(b"car 2 1", b"car 2 x\ncar 2 1")
        answers = [answer_of(told) for told in self.module.ask("split", [], data)]
        self.assertEqual(answers[6:], [Answer(2, b"error line 7: no register\n")] + [Answer(2, b"")] * 3)

    def test_a_long_answer(self) -> None:
        """A dump of many more bytes than an answer has room for at first."""
        made = b"".join(b"cons 1 work 0 1\n" for _ in range(20000))
        data = SMALLEST.replace(b"dynamic 100", b"dynamic 50000").replace(b"space 16", b"space 100").replace(b"car 2 1\n", made + b"dump\n")
        whole, session = self.module.answer("run", ["replay"], data), self.module.answer("session", [], data)
        self.assertEqual((whole.status, whole.output.count(b"\ncons work 5 #")), (0, 20000))
        self.assertEqual(session, whole)

    def test_lines_of_all_lengths(self) -> None:
        """A line of up to 32,768 bytes is read, and a longer one is refused."""
        for length in (32768, 32769, 32770, 100000):
            data = b"x" * length + b"\n"
            reason = b"not a world" if length <= 32768 else b"line too long"
            for call in ("run", "session"):
                self.assertEqual(self.module.answer(call, ["replay"], data), Answer(2, b"error line 1: " + reason + b"\n"))

    def test_no_memory(self) -> None:
        """With all memory taken a run answers that there is none. It may have no room to write that."""
        found = self.module.answer("full", [], SMALLEST)
        self.assertEqual(found.status, 5)
        self.assertIn(found.output, (b"", b"error: no memory\n"))

    def test_inside(self) -> None:
        """The replies, and after them the machine; a page call that fails."""
        found = self.module.answer("inside", [], SMALLEST)
        self.assertEqual((found.status, found.output[:17]), (0, b"ok\nok\n5\nlispm-ins"))
        data = SMALLEST.replace(b"car 2 1", b"page-out 32\ncar 2 1")
        self.assertEqual(self.module.answer("inside", ["--fail", "2"], data).output[:18], b"ok\nok\nok\nfault\nlis")
        self.assertEqual(self.module.answer("inside", ["--fail", "x"], data), Answer(7, b"error: usage\n"))

    def test_types(self) -> None:
        """What machine.d.mts declares is there, and the version is that of VERSION."""
        types = read(WEB, "machine.d.mts").decode()
        names = {one: re.findall(r"^  (\w+)\(", types.partition(f"interface {one} ")[2].partition("\n}")[0], re.M) for one in ("Machine", "Session")}
        self.assertEqual(sorted(names["Session"]), ["close", "end", "line"])
        text = NAMES.replace("MACHINE", str(names["Machine"])).replace("SESSION", str(names["Session"]))
        ended = subprocess.run(["node", "--input-type=module", "-"], input=text.encode(), cwd=WEB, stdout=subprocess.PIPE)
        self.assertEqual((ended.returncode, ended.stdout), (0, read(TOP, "VERSION")))


if __name__ == "__main__":
    unittest.main()
