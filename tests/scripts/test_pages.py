"""tests/pages, on pages of its own and with a stand-in for the programs."""
import os
import re

from tree import Tree

PROGRAM = """#!/bin/sh
# A stand-in: a reply for each command of a trace that it knows, and for a whole file nothing.
[ "$1" = compile ] && { grep -q "^  indented  7$" || exit 2; exit 0; }
[ "$1" = census ] && { grep -q wrong && { echo "error line 2: unexpected line"; exit 2; }; exit 0; }
while read -r line; do
    case $line in
    set*) echo ok ;;
    dump) printf 'lispm-world 2\\nend-world\\n' ;;
    conz*) echo "error line 4: unknown command"; exit 2 ;;
    open) echo "opened 0" ;;
    esac
done
"""
RIGHT = """# A page

    lispm-world 1
    space 16 32 8 1 2        the sizes
    trace
    set 0 5                  ok        a remark
    dump                     lispm-world 2
                             end-world
    end

Text, and a figure that says nothing:

    a ── b

```
$ echo one; echo two     # a remark
one
two
$ cat missing 2>/dev/null; exit 3   # status 3
$ printf 'a\\nb\\nc\\n' |
> tail -n 3
a
...
c
```

    lispm-world 1
    trace
    conz 1                   error line 4: unknown command
    end

A world, expressions, and commands over saved bands.

    lispm-world 2
    end-world

Text.

    sexpr-world 1
      indented  7
    end-sexpr

Text.

    open
    end

Text.

    $ echo kept >made && bin/lispm census made
    $ grep -c kept made
    1
"""
WRONG = {
    "a reply": "    lispm-world 1\n    trace\n    set 0 5      nil\n    end\n",
    "a reply too many": "    lispm-world 1\n    trace\n    set 0 5      ok\n    end      ok\n",
    "a world file": "    lispm-world 2\n    wrong\n    end-world\n",
    "an input that is refused": "    lispm-world 1\n    trace\n    conz 1\n    end\n",
    "an output": "    $ echo one\n    two\n",
    "an output that goes on": "    $ printf 'one\\ntwo\\n'\n    one\n",
    "a status": "    $ exit 2\n",
    "a command in no form": "    bin/lispm replay <SESSION\n",
}


class Pages(Tree):
    """What is read out of pages and how it is judged."""

    def setUp(self) -> None:
        super().setUp()
        for name in ("pages", "page_text.py", "prose.py", "language", "language.counts"):
            self.copy(f"tests/{name}")
        for name in ("lispm", "lispm_bands", "lispm_inside"):
            self.write(f"crates/{name}/out/{name}", PROGRAM)
            os.chmod(self.path(f"crates/{name}/out/{name}"), 0o755)

    def test_a_right_page_passes(self) -> None:
        """Sessions, files and commands in all their forms."""
        self.write("README.md", RIGHT)
        ended = self.run_words("tests/pages", "README.md", PATH=os.environ["PATH"])
        self.assertEqual((ended.status, ended.out), (0, "10 passed, 0 failed, 0 left out\n"), ended.err)
        self.assertFalse(os.path.exists(self.path("made")))

    def test_the_copy_is_whole(self) -> None:
        """The copy has the files of the repository, and no results of builds."""
        self.write("tests/sessions/one/out", "wanted\n")
        self.write("bin/out/seconds", "")
        self.write("README.md", "    $ cat tests/sessions/one/out; ls bin/out 2>/dev/null | cat\n    wanted\n")
        self.assertEqual(self.run_words("tests/pages", "README.md", PATH=os.environ["PATH"]).out, "1 passed, 0 failed, 0 left out\n")

    def test_what_differs_is_told(self) -> None:
        """Each kind of difference, with its place."""
        for name, text in WRONG.items():
            self.write("docs/WRONG.md", f"Text\n\n{text}\nText\n")
            ended = self.run_words("tests/pages", "docs/WRONG.md", PATH=os.environ["PATH"])
            self.assertEqual((ended.status, ended.out.splitlines()[-1]), (1, "0 passed, 1 failed, 0 left out"), name)
            self.assertTrue(ended.out.startswith("docs/WRONG.md:3: "), ended.out)

    def test_what_is_left_out_is_told(self) -> None:
        """By name, and what breaks off; it isn't run."""
        self.write("README.md", "    $ bin/install /nowhere\n    $ touch made && .ci/run\n    $ echo a   # not .ci/run\n    a\n\nText\n\n"
                   "    lispm-world 1\n    trace\n")
        ended = self.run_words("tests/pages", "README.md", PATH=os.environ["PATH"])
        self.assertEqual(ended.out.splitlines()[-1], "1 passed, 0 failed, 3 left out")
        self.assertIn("README.md:1: bin/install /nowhere, left out\n", ended.out)
        listed = self.run_words("tests/pages", "--list").out.splitlines()
        self.assertEqual(listed[1:], ["README.md:2: touch made && .ci/run, left out", "README.md:3: echo a   # not .ci/run",
                                      "README.md:8: a session, lispm-world 1, breaks off, left out"])

    def test_without_programs(self) -> None:
        """A missing program is reported, and nothing is proved."""
        self.write("README.md", RIGHT)
        os.remove(self.path("crates/lispm/out/lispm"))
        ended = self.run_words("tests/pages", "README.md")
        self.assertEqual((ended.status, self.calls()), (69, []))
        self.assertIn("build lispm by `bin/build lispm`", ended.err)


SPECS = "-- a head\nuse A.{B}\n\n-- a remark\npub record Pair : Type 0 where\n  pub left : B  -- the first\n  -- another remark\n  pub right : B\n"
QUOTE = "[Pair](../crates/low/specs/Pair.antt#L{line}):\n\n```\n{text}\n```\n"


class Text(Tree):
    """The tests of the text of pages."""

    def setUp(self) -> None:
        super().setUp()
        for name in ("pages", "page_text.py", "prose.py", "language", "language.counts"):
            self.copy(f"tests/{name}")
        self.write("crates/low/specs/Pair.antt", SPECS)

    def judge(self, text: str) -> str:
        """The first line that is written of a page with this text."""
        self.write("docs/PAGE.md", text)
        return self.run_words("tests/pages", "--text", "docs/PAGE.md").out.split("\n")[0]

    def test_links(self) -> None:
        """To a file, a folder, a heading and a line; and to what isn't there."""
        self.write("docs/OTHER.md", "# Other\n\n## Two `words`, and more\n\n<a id=\"place\"></a>Text\n")
        for link in ("OTHER.md", "OTHER.md#two-words-and-more", "OTHER.md#place", "../bin", "#here", "../crates/low/specs/Pair.antt#L5", "https://nowhere/x"):
            self.assertRegex(self.judge(f"# Here\n\n[it]({link})\n"), r"^\d passed, 0 failed", link)
        for link in ("NONE.md", "OTHER.md#three", "../crates/low/specs/Pair.antt#L50", "#there"):
            self.assertRegex(self.judge(f"# Here\n\n[it]({link})\n"), rf"^docs/PAGE.md:3: {re.escape(link)}: ")

    def test_quotes(self) -> None:
        """Word for word, without remarks; a wrong line number is mended."""
        whole = "pub record Pair : Type 0 where\n  pub left : B\n  pub right : B"
        for text in (whole, "pub record Pair : Type 0 where\n  ...\n  pub right : B"):
            self.assertEqual(self.judge(QUOTE.format(line=5, text=text)), "2 passed, 0 failed, 0 left out")
        for text in (whole.replace("left", "car"), "pub record Pair : Type 0 where\n  pub right : B"):
            self.assertRegex(self.judge(QUOTE.format(line=5, text=text)), "no such lines, word for word")
        self.assertRegex(self.judge(QUOTE.format(line=4, text=whole)), "begin at line 5 .* not at line 4")
        self.run_words("tests/pages", "--renumber", "docs/PAGE.md")
        self.assertEqual(self.read("docs/PAGE.md"), QUOTE.format(line=5, text=whole))

    def test_names(self) -> None:
        """A name between backquotes is in a file to which its row links."""
        row = "| a pair | `{name}` | [Pair](../crates/low/specs/Pair.antt) |\n"
        self.assertEqual(self.judge(row.format(name="right")), "2 passed, 0 failed, 0 left out")
        self.assertRegex(self.judge(row.format(name="rights")), "^docs/PAGE.md:1: rights isn't in crates/low/specs/Pair.antt")

    def test_paths(self) -> None:
        """A path between backquotes exists, from the top, or in a crate's README from its folder or from that of another crate."""
        self.assertEqual(self.judge("See `bin/seconds` and `crates/NAME/src`.\n"), "1 passed, 0 failed, 0 left out")
        self.assertRegex(self.judge("See `bin/wrods.py`.\n"), "^docs/PAGE.md:1: bin/wrods.py: no such file")
        self.write("crates/lispm/README.md", "`specs/Pair.antt` of `low`\n\n`src/main`\n\n`specs/Pair.antt`\n")
        ended = self.run_words("tests/pages", "--text", "crates/lispm/README.md")
        self.assertEqual(ended.out.splitlines(), ["crates/lispm/README.md:5: specs/Pair.antt: no such file", "2 passed, 1 failed, 0 left out"])

    def test_language(self) -> None:
        """An idiom is found in text and not in code; one more than the limit fails."""
        self.write("crates/low/README.md", "A page {0}\nanother `{0}`.\n\n    {0}\n".format("behind"))
        found = self.run_words("tests/language", "crates/low/README.md").out
        self.assertEqual((found.count("\n"), found.split(" (")[0]), (1, "crates/low/README.md:1: behind"))
        for limit, status in ((1, 0), (0, 1)):
            counts = "".join(line for line in self.read("tests/language.counts").splitlines(True) if not line.startswith("behind "))
            self.write("tests/language.counts", counts + f"behind readmes 9 {limit}\nbehind pages 999 999\nbehind help 999 999\n")
            ended = self.run_words("tests/language")
            self.assertEqual((ended.status, "behind: 1 in readmes, at most 0" in ended.out), (status, limit == 0), ended.out)

    def test_sentences(self) -> None:
        """The same ones for the same seed; of paragraphs, lists and tables, and none of code."""
        self.copy("tests/sentences")
        self.write("docs/PAGE.md", "# A heading of this page here\n\nOne sentence has `code` in it. Another one goes over\ntwo lines of text.\n\n"
                   "    $ this is a command that is shown\n\n- An entry of a list is text.\n\n| a cell of a large table too | b |\n|---|---|\n")
        taken = [self.run_words("tests/sentences", "--seed", seed, "--count", "9", "docs/PAGE.md").out for seed in ("00000001", "00000001", "00000002")]
        self.assertEqual(taken[0], taken[1])
        self.assertEqual(taken[0].splitlines(), [
            "docs/PAGE.md:1: A heading of this page here", "docs/PAGE.md:3: Another one goes over two lines of text.",
            "docs/PAGE.md:3: One sentence has `code` in it.", "docs/PAGE.md:8: An entry of a list is text.", "docs/PAGE.md:10: a cell of a large table too"])
        one = [self.run_words("tests/sentences", "--seed", f"{seed:08x}", "--count", "1", "docs/PAGE.md").out for seed in range(8)]
        self.assertGreater(len(set(one)), 1)
        self.assertEqual(self.run_words("tests/sentences", "--seed", "zz").status, 2)
