"""bin/install, and manual pages."""
import os
import re
import shutil
import subprocess

from lib.scripts.words import PROGRAMS
from tree import OLD, TOP, Tree


class Install(Tree):
    """What is installed, and from what."""

    def install(self) -> str:
        """Installs the programs, and takes the sources away."""
        for name in PROGRAMS:
            self.build_by_hand(name)
        self.build_library()
        self.assertEqual(self.run_words("bin/install", self.path("prefix")).status, 0)
        shutil.rmtree(self.path("crates"))
        self.without_rt()
        return "prefix/bin/lispm"

    def test_what_is_not_built_is_refused(self) -> None:
        """Nothing is copied, nothing is proved."""
        ended = self.run_words("bin/install", self.path("prefix"))
        self.assertEqual((ended.status, ended.err), (1, "install: lispm isn't built: run bin/build lispm\n"))
        self.assertFalse(os.path.exists(self.path("prefix")))
        self.assertEqual(self.calls(), [])

    def test_what_is_stale_is_refused(self) -> None:
        """A program that is older than a source is no proved program of these sources."""
        for name in PROGRAMS:
            self.make_stale(name)
        ended = self.run_words("bin/install", self.path("prefix"), LISPM_STALE="run")
        self.assertEqual((ended.status, ended.err), (1, "install: lispm is older than crates/low/src/main.rt: run bin/build lispm\n"))
        self.assertFalse(os.path.exists(self.path("prefix")))

    def test_the_library_is_wanted(self) -> None:
        """Nothing is copied without the library, nor if it is older than a source."""
        for name in PROGRAMS:
            self.build_by_hand(name)
        ended = self.run_words("bin/install", self.path("prefix"))
        self.assertEqual((ended.status, ended.err), (1, "install: the C library isn't built: run bin/library\n"))
        self.build_library()
        os.utime(self.path("crates/lispm_c/out/liblispm.a"), (OLD - 5, OLD - 5))
        ended = self.run_words("bin/install", self.path("prefix"))
        self.assertEqual((ended.status, ended.err), (1, "install: the C library is older than crates.txt: run bin/library\n"))
        self.assertFalse(os.path.exists(self.path("prefix")))

    def test_installed_programs_run(self) -> None:
        """Without the sources and the kit: words, files, help, the version and causes."""
        program = self.install()
        self.assertIn("by-hand: replay", self.run_words(program, "replay").out)
        self.assertIn(self.read("VERSION"), self.run_words(program, "print", "VERSION").out)
        self.assertTrue(self.run_words(program, "--help").out.startswith("usage: lispm"))
        self.assertRegex(self.run_words(program, "--version").out, r"^lispm [0-9.]+, proved and built\nrattle-kit-13f\n$")
        self.assert_refused(self.run_words(program, "frobnicate"), "unknown mode")
        self.assertIn("by-hand", self.run_words("prefix/bin/lispm_bands").out)
        ended = self.run_words(program, "--trial", "replay")
        self.assertEqual((ended.status, ended.err), (69, "lispm: --trial needs the sources, see README\n"))

    def test_the_rest_is_installed(self) -> None:
        """Usage texts, manual pages and licences; and a second time over the first."""
        self.install()
        for path in ("libexec/lispm/bin/lispm.usage", "share/man/man1/lispm.1", "share/man/man1/lispm_bands.1",
                     "share/doc/lispm/LICENSE-MIT", "share/doc/lispm/LICENSE-APACHE", "libexec/lispm/programs/lispm_bands",
                     "lib/liblispm.a", "include/lispm.h", "lib/pkgconfig/lispm.pc", "share/man/man3/lispm.3"):
            self.assertTrue(os.path.isfile(self.path(f"prefix/{path}")), path)
        self.assertIn("\nVersion: " + self.read("VERSION"), self.read("prefix/lib/pkgconfig/lispm.pc"))
        for name in PROGRAMS:
            self.build_by_hand(name)
        self.copy("crates/lispm_c")
        self.build_library()
        self.assertEqual(self.run_words("bin/install", self.path("prefix")).status, 0)

    def test_a_folder_that_cannot_be_written(self) -> None:
        """One line says which."""
        for name in PROGRAMS:
            self.build_by_hand(name)
        self.build_library()
        ended = self.run_words("bin/install", self.path("VERSION"))
        self.assertEqual(ended.status, 1)
        self.assertRegex(ended.err, r"^install: .*: Not a directory\n$")

    def test_each_program_has_its_files(self) -> None:
        """A script, a usage text, and a manual page, which states the version; each option is in both texts."""
        with open(os.path.join(TOP, "VERSION")) as file:
            version = file.read().strip()
        for name, program in PROGRAMS.items():
            page, usage = self.read(f"man/{name}.1"), self.read(f"bin/{name}.usage")
            self.assertIn(f'"lispm {version}"', page)
            self.assertTrue(os.access(self.path(f"bin/{name}"), os.X_OK))
            for word in [*program.modes, *program.options, "--trial", "--help", "--version"]:
                self.assertIn(word, usage)
                self.assertIn(word, page.replace("\\-", "-"))

    def test_the_library_has_its_page(self) -> None:
        """The manual page of the library has the version, each public function, and each status with its number."""
        page, header = self.read("man/lispm.3").replace("\\-", "-"), self.read("crates/lispm_c/lispm.h")
        self.assertIn(f'"lispm {self.read("VERSION").strip()}"', page)
        functions = re.findall(r"^static inline \w+ (lispm_\w+)\(", header, re.MULTILINE)
        self.assertEqual(len(functions), 9)
        statuses = re.findall(r"^    (LISPM_\w+ = \d+),? ", header, re.MULTILINE)
        self.assertEqual(len(statuses), 11)
        for name in functions + statuses:
            self.assertIn(name, page)

    def test_manual_pages_can_be_read(self) -> None:
        """`man` shows each page without a warning."""
        if not shutil.which("man") or not shutil.which("groff"):
            self.skipTest("there is no man")
        for path, heading in [(f"man/{name}.1", b"EXIT STATUS") for name in PROGRAMS] + [("man/lispm.3", b"RETURN VALUE")]:
            ended = subprocess.run(["man", "--warnings", "-l", self.path(path)], stdout=subprocess.PIPE, stderr=subprocess.PIPE)
            self.assertEqual((ended.returncode, ended.stderr), (0, b""))
            self.assertIn(heading, ended.stdout)
