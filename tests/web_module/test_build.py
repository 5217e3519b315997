"""web/BUILD, and whether web/build makes the same module again."""
import os
import shutil
import subprocess
import unittest

from lib.scripts import made_from
from support import TOP, WEB

HAS_TOOLS = shutil.which("rt") and shutil.which("wasm-opt")


def git(*words: str) -> str:
    """What git writes, or nothing."""
    ended = subprocess.run(["git", *words], cwd=TOP, stdout=subprocess.PIPE, stderr=subprocess.DEVNULL, text=True)
    return ended.stdout.strip()


def age() -> str:
    """How old the module is: the commit that it was made from, and what has changed since."""
    commit, day = made_from.read_build()["commit"].split()
    since, changed = git("rev-list", "--count", f"{commit}..HEAD"), git("diff", "--name-only", commit, "--", *made_from.watched())
    return f"the module was made from {commit[:8]} of {day}, {since or '?'} commits ago; {len(changed.split())} of its sources have changed"


@unittest.skipUnless(os.path.isfile(made_from.BUILD), "there is no web/BUILD")
class Build(unittest.TestCase):
    def test_the_sum_of_the_module(self) -> None:
        """web/BUILD is that of web/lispm.wasm."""
        self.assertEqual(made_from.read_build()["lispm.wasm"], f"sha256 {made_from.sum_of_file(made_from.MODULE)}")

    def test_the_same_bytes(self) -> None:
        """web/build makes them again, if the sources are those that web/BUILD names."""
        if made_from.read_build()["sources"] != f"sha256 {made_from.sum_of_sources()}":
            self.skipTest(age())
        if not HAS_TOOLS:
            self.skipTest("rt or wasm-opt isn't there")
        for fact, found in made_from.tools().items():
            if found != made_from.read_build()[fact]:
                self.skipTest(f"{fact}: {found}, and the module was made with {made_from.read_build()[fact]}")
        missing = [name for name in made_from.below(made_from.CRATE) if not made_from.is_built(name)]
        if missing:
            self.skipTest(f"{len(missing)} crates below {made_from.CRATE} aren't built")
        ended = subprocess.run([os.path.join(WEB, "build"), "--compare"], stdout=subprocess.PIPE, stderr=subprocess.STDOUT, text=True)
        self.assertEqual(ended.returncode, 0, ended.stdout)

    def test_the_sum_of_the_sources_sees_each(self) -> None:
        """Another byte in any source gives another sum."""
        found = list(made_from.sources(made_from.CRATE))
        self.assertEqual(len(found), len(set(found)))
        self.assertTrue({os.path.join(WEB, name) for name in made_from.C_FILES} <= set(found))
        self.assertTrue(any(path.endswith("crates/store_word/src/lib.rt") for path in found))


if __name__ == "__main__":
    unittest.main()
