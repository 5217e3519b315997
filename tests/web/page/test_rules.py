"""The parts of the page that need no browser, in node: the rule of each command and reply, the place of a refused word, the parts
of a session, and the judge of exercises' conditions."""
import json
import os
import subprocess
import unittest
from typing import Any

from support import TOP, needs_node

from lib.inputs import verdict
from lib.pictures import node

# First words of commands, and the first words of the replies that each may have (docs/FORMATS.md, Replies).
MAY_BE = {
    "set": "ok", "move": "ok fault", "cons": "ok exhausted fault", "list": "ok exhausted fault", "make": "ok exhausted fault",
    "car": "7 nil cons block wrong-type fault", "cdr": "7 nil cons block wrong-type fault", "get": "7 nil cons block wrong-type no-field fault",
    "rplaca": "ok wrong-type fault", "rplacd": "ok wrong-type fault", "put": "ok wrong-type no-field fault", "size": "3 wrong-type fault",
    "eq": "t nil fault", "grow": "ok exhausted wrong-type fault", "flip": "flipped busy", "scavenge": "more done not-flipped fault",
    "reclaim": "reclaimed not-done not-flipped", "page-out": "ok fault", "stats": "area", "dump": "lispm-world fault"}
HEADER = "lispm-world 1\nspace 16 32 8 2 2\narea work dynamic 100\ntrace\n"
# A line of a trace that is refused, and the wrong words of it.
REFUSED = [("conz 1 work 0 0", "conz"), ("cons 1 nowhere 0 0", "nowhere"), ("cons 9 work 0 0", "9"), ("cons 1 work 0 8", "8"), ("car 1 -1", "-1"), ("set 0 2147483648", "2147483648"),
           ("set 0 #1", "#1"), ("get 1 2 x", "x"), ("page-out 01", "01"), ("flip 2,1", "2,1"), ("make 1 work 70000 3", "70000"), ("make 1 work 3 2048", "2048"), ("car 1 2 3", "3"),
           ("eq 1  2", "  "), ("eq 1 2 ", " "), ("put 1 x 9", "x")]


def evaluated(module: str, expression: str) -> Any:
    """What an expression over a module of web/src, called `m`, is."""
    script = f"import('{os.path.join(TOP, 'web', 'src', module)}').then(m => console.log(JSON.stringify({expression})))"
    return json.loads(subprocess.run([node.find() or "", "-e", script], stdout=subprocess.PIPE, check=True).stdout)


@needs_node
class Rules(unittest.TestCase):
    def test_each_command_and_reply_has_one(self) -> None:
        pairs = [(head, reply) for head, told in MAY_BE.items() for reply in told.split(" ")]
        found = evaluated("rules.mjs", f"{json.dumps(pairs)}.map(([head, reply]) => m.ruleOf(head, reply))")
        self.assertEqual([pair for pair, rule in zip(pairs, found) if not rule.endswith(".")], [])

    def test_no_other_has(self) -> None:
        pairs = [("set", "busy"), ("flip", "done"), ("eq", "cons"), ("cons", "no-field 2"), ("reclaim", "busy")]
        self.assertEqual(evaluated("rules.mjs", f"{json.dumps(pairs)}.map(([head, reply]) => m.ruleOf(head, reply))"), [""] * len(pairs))

    def test_a_collection_adds_the_barrier_and_the_rate(self) -> None:
        calls = [("car", "1", False), ("car", "1", True), ("cons", "ok", True), ("set", "ok", True), ("cons", "exhausted work 4 2 4", True)]
        self.assertEqual(evaluated("rules.mjs", f"{json.dumps(calls)}.map(call => m.sentences(...call).length)"), [1, 2, 3, 1, 1])


@needs_node
class Refusals(unittest.TestCase):
    def test_the_word_is_the_one_that_check_names(self) -> None:
        world = {"registers": 8, "areas": ["work"]}
        judged = [(line, verdict.judge((HEADER + line + "\nend\n").encode()).reason) for line, _ in REFUSED]
        spans = evaluated("refused.mjs", f"{json.dumps(judged)}.map(([line, reason]) => m.spanOf(line, reason, {json.dumps(world)}, true))")
        for (line, word), (_, reason), span in zip(REFUSED, judged, spans):
            self.assertEqual(line[span["from"]:span["to"]], word, f"{line}: {reason}")

    def test_a_word_that_is_missing_is_after_the_line(self) -> None:
        self.assertEqual(evaluated("refused.mjs", "m.spanOf('car 1', 'wrong count', {registers: 8, areas: []}, true)"), {"from": 5, "to": 6})


@needs_node
class Sessions(unittest.TestCase):
    TEXT = "; A question?\nlispm-world 1\nspace 16 32 8 1 2\narea work dynamic 4\ntrace\n;\n; First part,\n; two lines.\n;\n; Second part.\nset 0 1     ; ?\n; picture\nset 1 2\n; The end.\nend\n"

    def test_comments_are_captions_of_the_command_after_them(self) -> None:
        found = evaluated("session.mjs", f"m.parse({json.dumps(self.TEXT)})")
        self.assertEqual(found["captions"]["0"], ["A question?"])
        self.assertEqual(found["captions"]["1"], ["First part, two lines.", "Second part."])
        self.assertEqual((found["captions"].get("2"), found["captions"]["ending"]), (None, ["The end."]))
        self.assertEqual([(one["text"], one["at"], one["asked"]) for one in found["commands"]], [("set 0 1", 10, True), ("set 1 2", 12, False)])

    def test_a_prefix_is_the_input_up_to_a_command(self) -> None:
        found = evaluated("session.mjs", f"m.prefix(m.parse({json.dumps(self.TEXT)}), 1)")
        self.assertEqual(found, "lispm-world 1\nspace 16 32 8 1 2\narea work dynamic 4\ntrace\nset 0 1\nend\n")

    def test_a_session_from_a_page_is_read_without_its_replies(self) -> None:
        page = ("    lispm-world 1\n    space 16 32 8 1 2\n    area work dynamic 4\n    trace\n\n    ; A remark.\n    set 0 1                  ok\n"
                "    dump                     lispm-world 2\n                             end-world\n    end\n")
        plain = "lispm-world 1\nspace 16 32 8 1 2\narea work dynamic 4\ntrace\n;\n; A remark.\nset 0 1\ndump\nend\n"
        found = evaluated("session.mjs", f"[{json.dumps(page)}, {json.dumps(plain)}, {json.dumps(self.TEXT)}, 'set 0 1'].map(m.unpasted)")
        self.assertEqual(found, [plain, plain, self.TEXT, "set 0 1"])

    def test_the_command_of_a_line(self) -> None:
        self.assertEqual(evaluated("session.mjs", f"[0, 9, 10, 11, 12, 14].map(line => m.commandAt(m.parse({json.dumps(self.TEXT)}), line))"), [0, 0, 1, 1, 2, 2])

    def test_what_two_sessions_have_in_common(self) -> None:
        other = self.TEXT.replace("set 1 2", "set 1 3")
        self.assertEqual(evaluated("session.mjs", f"[m.common(m.parse({json.dumps(self.TEXT)}), m.parse({json.dumps(other)})), m.common(m.parse('x'), m.parse({json.dumps(other)}))]"), [1, -1])


if __name__ == "__main__":
    unittest.main()
