"""bin/release: what is in the archive, and that it is whole."""
import hashlib
import os
import subprocess
import tarfile

from lib.scripts.words import PROGRAMS
from tree import Tree


class Release(Tree):
    """An archive of a tree in which everything is built."""

    def release(self, folder: str = "made") -> str:
        """Makes the archive, and answers its path."""
        ended = self.run_words("bin/release", self.path(folder))
        self.assertEqual((ended.status, ended.err), (0, ""))
        return ended.out.rstrip("\n")

    def setUp(self) -> None:
        super().setUp()
        self.copy("docs")

    def build_all(self) -> None:
        for name in PROGRAMS:
            self.build_by_hand(name)
        self.build_library()

    def unpacked(self, path: str) -> str:
        """The folder of the archive, unpacked elsewhere."""
        with tarfile.open(path) as archive:
            archive.extractall(self.path("elsewhere"))
        (name,) = os.listdir(self.path("elsewhere"))
        return self.path(f"elsewhere/{name}")

    def test_what_is_in_it(self) -> None:
        """Programs, library, header, pages, licences, examples, and the commit and the kit."""
        self.build_all()
        path = self.release()
        self.assertRegex(os.path.basename(path), r"^lispm-[0-9.]+-\w+-linux\.tar\.gz$")
        top = self.unpacked(path)
        for name in ("libexec/lispm/programs/lispm", "lib/liblispm.a", "include/lispm.h", "lib/pkgconfig/lispm.pc",
                     "share/man/man3/lispm.3", "share/man/man1/lispm.1", "share/doc/lispm/LIBRARY.md", "share/doc/lispm/LICENSE-MIT",
                     "share/doc/lispm/LICENSE-APACHE", "share/doc/lispm/examples/library/Makefile",
                     "share/doc/lispm/examples/drivers/c/collector.c", "share/doc/lispm/examples/session.in", "README"):
            self.assertTrue(os.path.isfile(os.path.join(top, name)), name)
        for name, text in (("VERSION", self.read("VERSION")), ("KIT", "rattle-kit-13f\n"), ("COMMIT", "no commit\n")):
            with open(os.path.join(top, name)) as file:
                self.assertEqual(file.read(), text)

    def test_check_sums(self) -> None:
        """Those in the archive are of all its files, and the one beside it is the archive's."""
        self.build_all()
        path = self.release()
        top = self.unpacked(path)
        ended = subprocess.run(["sha256sum", "--quiet", "-c", "SHA256SUMS"], cwd=top, stdout=subprocess.PIPE, stderr=subprocess.STDOUT)
        self.assertEqual((ended.returncode, ended.stdout), (0, b""))
        with open(os.path.join(top, "SHA256SUMS")) as file:
            listed = {line.rstrip("\n").split("  ")[1] for line in file}
        there = {os.path.relpath(os.path.join(folder, name), top) for folder, _, names in os.walk(top) for name in names}
        self.assertEqual(listed, there - {"SHA256SUMS"})
        with open(path, "rb") as file:
            total = hashlib.sha256(file.read()).hexdigest()
        with open(f"{path}.sha256") as file:
            self.assertEqual(file.read(), f"{total}  {os.path.basename(path)}\n")

    def test_the_same_files_give_the_same_archive(self) -> None:
        """At another time, and in another folder."""
        self.build_all()
        paths = [self.release("one"), self.release("two")]
        archives = []
        for path in paths:
            with open(path, "rb") as file:
                archives.append(file.read())
        self.assertEqual(*archives)

    def test_its_programs_run(self) -> None:
        """In the folder into which it was unpacked, without the sources and the kit."""
        self.build_all()
        top = self.unpacked(self.release())
        self.without_rt()
        ended = subprocess.run([os.path.join(top, "bin", "lispm"), "replay"], env=self.environment(), stdin=subprocess.DEVNULL,
                               stdout=subprocess.PIPE, text=True)
        self.assertIn("by-hand: replay", ended.stdout)

    def test_what_is_not_built_is_refused(self) -> None:
        """Nothing is made."""
        for name in PROGRAMS:
            self.build_by_hand(name)
        ended = self.run_words("bin/release", self.path("made"))
        self.assertEqual((ended.status, ended.err), (1, "release: the C library isn't built: run bin/library\n"))
        self.assertFalse(os.path.exists(self.path("made")))
