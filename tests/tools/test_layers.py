"""tools/layers: the picture of the crates is that of crates.txt."""
import os
import unittest

from support import TOP, run_tool, with_files

PICTURE = os.path.join(TOP, "docs", "pictures", "layers.svg")


class Layers(unittest.TestCase):
    def test_the_picture_in_docs(self) -> None:
        """It was drawn from crates.txt as it is; one that was drawn from other crates is refused."""
        self.assertEqual(run_tool("layers", "--check", PICTURE), (0, "", ""))
        with open(PICTURE, "rb") as file:
            drawn = file.read()
        for wrong in (drawn.replace(b"lispm -&gt; replay_run", b"lispm -&gt; line_input"), drawn.replace(b"<desc>", b""), b""):
            with with_files(wrong) as (name,):
                ended = run_tool("layers", "--check", name)
                self.assertEqual((ended.status, ended.errors.count("\n")), (1, 1))

    def test_the_graph(self) -> None:
        """It has each crate, an arrow to each crate that is used directly, and none that follows from others."""
        ended = run_tool("layers", "-T", "dot")
        self.assertEqual(ended.status, 0)
        for line in ("  lisp_heap [", "  paged_machine -> lisp_heap;", "  scavenger -> transporter;"):
            self.assertIn(line, ended.output)
        for line in ("lisp_heap -> store_word", "scavenger -> area_space", "test_graph"):
            self.assertNotIn(line, ended.output)


if __name__ == "__main__":
    unittest.main()
