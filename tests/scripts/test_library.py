"""bin/library, and bin/build of the C library."""
import os

from tree import OLD, TOP, Tree

# A stand-in for the kit's compiler: notes its call, and writes what -o names, unless RATTLE_FAILS is set.
RATTLE = """#!/bin/sh
echo "rattle: $*" >>"$RT_CALLS"
[ -n "${RATTLE_FAILS-}" ] && exit 1
while [ "$1" != -o ]; do shift; done
echo archive >"$2"
"""
# A stand-in for ar: takes a file out of an archive, or adds one.
AR = """#!/bin/sh
case $1 in
x) echo "$3" >"$3" ;;
rcs) cat "$3" >>"$2" ;;
esac
"""


class Library(Tree):
    """A tree with a kit of stand-ins."""

    def setUp(self) -> None:
        super().setUp()
        self.without_rt()
        with open(os.path.join(TOP, "tests", "scripts", "rt")) as file:
            self.script("kit/bin/rt", file.read())
        self.script("kit/bin/program", "made=by-hand\n")
        self.script("kit/bin/rattle", RATTLE)
        self.script("kit/toolchain/bin/llvm-ar", AR)
        os.symlink(self.path("kit/bin/rt"), os.path.join(self.commands, "rt"))

    def script(self, path: str, text: str) -> None:
        """Writes an executable file."""
        self.write(path, text)
        os.chmod(self.path(path), 0o755)

    def prove_below(self) -> None:
        """Puts what the crate below leaves in its place."""
        self.write("crates/low/out/rlib/low.rlib", "statements\n")

    def assert_refused_with(self, cause: str, status: int = 1, **more: str) -> None:
        """It says this in one line, and there is no library."""
        ended = self.run_words("bin/library", **more)
        self.assertEqual((ended.status, ended.err.splitlines()[-1]), (status, f"library: {cause}"))
        self.assertFalse(os.path.exists(self.path("crates/lispm_c/out/liblispm.a")))

    def rattles(self) -> int:
        """How often the compiler was called."""
        return sum(call.startswith("rattle: ") for call in self.calls())

    def test_it_is_built_over_what_is_proved(self) -> None:
        """The compiler is called once; both archives are put together; a second time nothing is done."""
        self.prove_below()
        for _ in range(2):
            ended = self.run_words("bin/library")
            self.assertEqual(ended.status, 0, ended.err)
        self.assertEqual(self.read("crates/lispm_c/out/liblispm.a"), "archive\nheap.pic.o\n")
        self.assertEqual(self.rattles(), 1)
        call = self.calls()[0]
        self.assertIn(f"--extern low={self.path('crates/low/out/rlib/low.rlib')}", call)
        self.assertIn("--crate-type staticlib", call)

    def test_a_newer_source(self) -> None:
        """It is built again; if the source is of the crate below, that has to be proved first."""
        self.prove_below()
        self.run_words("bin/library")
        for name in ("liblispm.a", "liblispm_c.a"):
            os.utime(self.path(f"crates/lispm_c/out/{name}"), (OLD + 5, OLD + 5))
        os.utime(self.path("crates/lispm_c/src/main.rt"), (OLD + 9, OLD + 9))
        self.assertEqual(self.run_words("bin/library").status, 0)
        self.assertEqual(self.rattles(), 2)
        for path in ("crates/low/out/rlib/low.rlib", "crates/low/out/rlib", "crates/lispm_c/out/liblispm.a", "crates/lispm_c/out/liblispm_c.a"):
            os.utime(self.path(path), (OLD + 5, OLD + 5))
        os.utime(self.path("crates/low/src/main.rt"), (OLD + 9, OLD + 9))
        ended = self.run_words("bin/library")
        self.assertEqual((ended.status, ended.err), (1, "library: low is older than crates/low/src/main.rt: run bin/build lispm_c\n"))

    def test_what_is_missing(self) -> None:
        """Proofs below, the kit, the crate itself; and a crate that isn't proved."""
        self.assert_refused_with("low isn't proved, and the library depends on it: run bin/build lispm_c")
        self.prove_below()
        self.assert_refused_with("lispm_c is NOT PROVED, see crates/lispm_c/out/library.log", RATTLE_FAILS="1")
        self.without_rt()
        self.assert_refused_with("needs the command rt (rattle-kit-13b or rattle-kit-13f), see README", 69)
        self.write("crates.txt", "low:\n")
        self.assert_refused_with("there is no crate lispm_c")

    def test_build(self) -> None:
        """bin/build proves what is below, builds the crate as a library, and bin/library adds the kit's functions."""
        ended = self.run_words("bin/build", "lispm_c")
        self.assertEqual(ended.status, 0, ended.err)
        self.assertEqual(self.calls(), ["low: lib", "lispm_c: lib"])
        self.prove_below()
        self.assertEqual(self.run_words("bin/library").status, 0)
        self.assertEqual(self.rattles(), 0)
        self.assertEqual(self.read("crates/lispm_c/out/liblispm.a"), "archive\nheap.pic.o\n")
