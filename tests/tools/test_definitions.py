"""tools/definitions: what a definition depends on, over the files of this repository."""
import unittest

from support import run_tool


class Definitions(unittest.TestCase):
    def test_the_whole(self) -> None:
        """The program's theorem depends on the definitions of what a program sees, of runs and of the representation."""
        ended = run_tool("definitions")
        self.assertEqual((ended.status, ended.errors), (0, ""))
        for path in ("lisp_graph/specs/Effect", "lisp_meaning/specs/machine/Run", "lisp_meaning/specs/reading/Stands", "replay_run/specs/Replies"):
            self.assertRegex(ended.output, rf"(?m)^ *\d+  crates/{path}\.antt$")
        for path in ("lisp_meaning/specs/invariants", "lisp_meaning/specs/Laws", "lisp_meaning/specs/examples"):
            self.assertNotIn(path, ended.output)

    def test_one(self) -> None:
        """An effect needs graphs alone; --each names the definitions."""
        ended = run_tool("definitions", "--each", "lisp_graph/Effect:effect")
        lines = [line.split() for line in ended.output.splitlines()]
        self.assertEqual([line[1].rstrip(":") for line in lines[:-1]], ["crates/lisp_graph/specs/Effect.antt", "crates/lisp_graph/specs/Graph.antt"])
        self.assertLessEqual({"effect", "Effect", "grown_block"}, set(lines[0]))
        self.assertNotIn("InRegisters", ended.output)

    def test_mistakes(self) -> None:
        """What isn't there is one line."""
        for word in ("effect", "nowhere/Effect:effect", "lisp_graph/Nothing:effect", "lisp_graph/Effect:nothing"):
            ended = run_tool("definitions", word)
            self.assertEqual((ended.status, ended.output, ended.errors.count("\n")), (2, "", 1), word)


if __name__ == "__main__":
    unittest.main()
