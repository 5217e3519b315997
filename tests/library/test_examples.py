"""The page's ten lines, the examples in C, C++ and Python, and the archive of bin/release, over an installed library."""
import os
import re
import shutil
import sys
import threading
import unittest
from typing import Dict

import lispm
import support

EXAMPLES = os.path.join(support.TOP, "examples")
LIBRARY = os.path.join(EXAMPLES, "library")


def read(*path: str) -> bytes:
    with open(os.path.join(*path), "rb") as file:
        return file.read()


def page_program() -> bytes:
    """The program that docs/LIBRARY.md shows."""
    page = read(support.TOP, "docs", "LIBRARY.md").decode()
    block = page.partition("    /* replies.c */\n")[2].partition("\n\n`bin/install")[0]
    return re.sub("^    ", "", block, flags=re.MULTILINE).encode() + b"\n"


class Page(unittest.TestCase):
    """docs/LIBRARY.md."""

    def compiled(self, environment: Dict[str, str]) -> str:
        """The page's program, compiled as the page says."""
        folder = os.path.join(support.folder(), f"page-{len(environment['PKG_CONFIG_PATH'])}")
        os.makedirs(folder, exist_ok=True)
        with open(os.path.join(folder, "replies.c"), "wb") as file:
            file.write(page_program())
        ended = support.run(["sh", "-c", "cc -Wall -Wextra -Werror replies.c $(pkg-config --cflags --libs lispm) -o replies"], cwd=folder, environment=environment)
        self.assertEqual((ended.status, ended.errors), (0, b""))
        return os.path.join(folder, "replies")

    def test_ten_lines(self) -> None:
        """They are ten lines, and print the replies of examples/session.in."""
        support.needs_pkg_config()
        lines = [line for line in page_program().decode().splitlines() if line.strip() and not line.startswith("#include")]
        self.assertLessEqual(len(lines), 10)
        ended = support.run([self.compiled(support.installed())], read(EXAMPLES, "session.in"))
        self.assertEqual((ended.status, ended.output), (0, read(EXAMPLES, "session.out")))

    def test_session(self) -> None:
        """The page's session compiles, and its replies are as the page says."""
        page = read(support.TOP, "docs", "LIBRARY.md").decode()
        block = page.partition("    lispm_seat seat = {0};")
        lines = (block[1] + block[2]).partition("\n\n- **")[0].replace("/* reply has", "if (length != 3 || memcmp(reply, \"ok\\n\", 3) != 0) return 1; /*")
        text = f"#include <lispm.h>\nint main(void) {{\n{lines}\nreturn 0; }}\n"
        path = os.path.join(support.folder(), "page-session")
        ended = support.run(["cc", *support.FLAGS, "-o", path, "-x", "c", "-", "-x", "none", support.archive()], text.encode())
        self.assertEqual((ended.status, ended.errors), (0, b""))
        self.assertEqual(support.run([path]).status, 0)

    def test_release(self) -> None:
        """The archive, unpacked elsewhere, with gcc alone: no kit, no Python, no checkout."""
        support.needs_pkg_config()
        folder = os.path.join(support.folder(), "released")
        ended = support.run([os.path.join(support.TOP, "bin", "release"), folder])
        if ended.status and (b"isn't built" in ended.errors or b"is older than" in ended.errors):
            raise unittest.SkipTest(ended.errors.decode().strip())
        self.assertEqual((ended.status, ended.errors), (0, b""))
        support.run(["tar", "xzf", ended.output.decode().strip()], cwd=folder)
        (top,) = [os.path.join(folder, name) for name in os.listdir(folder) if os.path.isdir(os.path.join(folder, name))]
        environment = {"PKG_CONFIG_PATH": os.path.join(top, "lib", "pkgconfig")}
        program = self.compiled(environment)
        native = os.path.join(top, "libexec", "lispm", "programs", "lispm")
        for command in ([program], [native, "replay"]):
            ended = support.run(command, read(EXAMPLES, "session.in"), environment={"PATH": "/nowhere"})
            self.assertEqual((ended.status, ended.output), (0, read(EXAMPLES, "session.out")))
        examples = os.path.join(top, "share", "doc", "lispm", "examples", "library")
        ended = support.run(["make", "-s", f"OUT={folder}"], cwd=examples, environment=environment)
        self.assertEqual((ended.status, ended.errors), (0, b""))
        self.assertEqual(support.run([os.path.join(folder, "whole")], read(EXAMPLES, "session.in")).output, read(EXAMPLES, "session.out"))

    def test_statuses(self) -> None:
        """The page's table has each status of the header, with its number."""
        header = dict(re.findall(r"^    (LISPM_\w+) = (\d+),? ", read(support.HEADER, "lispm.h").decode(), re.MULTILINE))
        table = dict(re.findall(r"^\| `(LISPM_\w+)` \| (\d+) \|", read(support.TOP, "docs", "LIBRARY.md").decode(), re.MULTILINE))
        self.assertEqual(table, header)


class Examples(unittest.TestCase):
    """examples/library, built by its makefile."""

    out: str

    @classmethod
    def setUpClass(cls) -> None:
        support.needs_pkg_config()
        if shutil.which("make") is None or shutil.which("c++") is None:
            raise unittest.SkipTest("there is no make, or no C++ compiler")
        cls.out = os.path.join(support.folder(), "examples")
        os.makedirs(cls.out, exist_ok=True)
        ended = support.run(["make", "-s", "-C", LIBRARY, f"OUT={cls.out}", "CFLAGS=-O2 -Wall -Wextra -Werror", "CXXFLAGS=-O2 -Wall -Wextra -Werror"],
                            environment=support.installed())
        assert (ended.status, ended.errors) == (0, b""), ended.errors.decode()

    def program(self, name: str) -> str:
        return os.path.join(self.out, name)

    def library(self) -> lispm.Library:
        return lispm.Library(self.program("liblispm.so"))

    def test_programs(self) -> None:
        """C and C++: the replies of a session; a line that is refused; an input that ends too early."""
        for data, status, output in ((read(EXAMPLES, "session.in"), 0, read(EXAMPLES, "session.out")),
                                     (b"lispm-world 3\n", 2, b"error line 1: not a world\n"), (b"lispm-world 1\n", 2, b"error line 2: no end\n")):
            for name in ("whole", "session"):
                with self.subTest(name=name, data=data[:20]):
                    ended = support.run([self.program(name)], data)
                    self.assertEqual((ended.status, ended.output, ended.errors), (status, output, b""))

    def test_lockstep(self) -> None:
        """The collector beside answers each command, in sessions with and without a collection."""
        for name in ("rplacd-in-a-full-area", "block-grows-twice", "space-regained"):
            data = read(support.TOP, "tests", "sessions", name, "in")
            with self.subTest(name=name):
                ended = support.run([self.program("lockstep")], data)
                self.assertEqual((ended.status, ended.errors), (0, b""), ended.output)
                self.assertEqual(ended.output.count(b"\n"), data.partition(b"\ntrace\n")[2].count(b"\n") - 1)
        ended = support.run([self.program("lockstep")], read(EXAMPLES, "session.in").replace(b"eq 3 1", b"conz"))
        self.assertEqual((ended.status, ended.output.splitlines()[-1]), (1, b"error line 9: unknown command"))

    def test_python_program(self) -> None:
        """session.py shows the README's session."""
        ended = support.run([sys.executable, os.path.join(LIBRARY, "session.py"), "--library", self.program("liblispm.so")], read(EXAMPLES, "session.in"))
        shown = [line.split("  ")[-1].strip() for line in ended.output.decode().splitlines() if "  " in line]
        self.assertEqual(("\n".join(shown) + "\n").encode(), read(EXAMPLES, "session.out"))
        ended = support.run([sys.executable, os.path.join(LIBRARY, "session.py"), "--library", "/nowhere.so"])
        self.assertEqual((ended.status, ended.output), (69, b""))

    def test_python_whole(self) -> None:
        """All modes, answers that are longer than what is tried first, and empty inputs."""
        library = self.library()
        self.assertEqual(library.main(["replay"], read(EXAMPLES, "session.in")), (0, read(EXAMPLES, "session.out")))
        self.assertEqual(library.main([], b""), (7, b"error: usage\n"))
        self.assertEqual(library.main(["replay"], b""), (2, b"error line 1: not a world\n"))
        self.assertEqual(library.main(["replay"]), (2, b"error line 1: not a world\n"))
        dumps = b"lispm-world 1\nspace 16 32 8 1 2\narea work dynamic 100\ntrace\n" + b"dump\n" * 2000 + b"end\n"
        status, output = library.main(["replay"], dumps)
        self.assertEqual((status, output.count(b"end-world\n")), (0, 2000))
        self.assertEqual(library.inside([], b"lispm-world 3\n"), (2, b"error line 1: not a world\n"))

    def test_python_sessions(self) -> None:
        """Empty lines, line feeds, lines after a refusal and after the end, a closed session, an answer once more."""
        library = self.library()
        with library.session() as session:
            self.assertEqual(session.answer(b"lispm-world 1\n"), (lispm.FEED, b""))
            self.assertEqual(session.answer(b""), (lispm.REFUSED, b"error line 1: not a world\n"))
            self.assertEqual(session.again(), (lispm.REFUSED, b"error line 1: not a world\n"))
            with self.assertRaises(lispm.Refused):
                session.line(b"trace")
        self.assertEqual(session.answer(b""), (lispm.EMPTY, b""))
        session.close()
        with library.session() as session:
            for line in read(EXAMPLES, "session.in").splitlines():
                session.line(line)
            self.assertEqual(session.end(), (lispm.DONE, b""))
            self.assertEqual(session.answer(b"stats"), (lispm.ENDED, b""))

    def test_python_long_answers(self) -> None:
        """A dump that is longer than the room, and the version."""
        library, items = self.library(), " ".join(["0"] * 1000)
        with library.session() as session:
            for line in ("lispm-world 1", "space 32 32 8 1 2", "area work dynamic 9000", "trace", "set 0 123456789", f"list 1 work {items}"):
                session.line(line.encode())
            dump = session.line(b"dump")
            self.assertGreater(len(dump), lispm.ROOM)
            self.assertTrue(dump.endswith(b"\nend-world\n"))
            self.assertEqual(session.again().output, dump)
        self.assertEqual(".".join(map(str, library.version())), read(support.TOP, "VERSION").decode().strip())

    def test_python_threads(self) -> None:
        """Eight threads, each with a session of its own; and a session that two of them use by turns."""
        library, wrong = self.library(), []

        def run() -> None:
            with library.session() as session:
                replies = b"".join(session.line(line) for line in read(EXAMPLES, "session.in").splitlines())
                if replies != read(EXAMPLES, "session.out"):
                    wrong.append(replies)

        threads = [threading.Thread(target=run) for _ in range(8)]
        for thread in threads:
            thread.start()
        for thread in threads:
            thread.join()
        self.assertEqual(wrong, [])


class Drivers(unittest.TestCase):
    """examples/drivers/lockstep and examples/hypothesis over the library."""

    def lockstep(self, *words: str) -> support.Ended:
        return support.run([os.path.join(EXAMPLES, "drivers", "lockstep"), *words])

    def test_lockstep(self) -> None:
        """The library in the place of the program: nothing else is shown, and a bug is found at the same line."""
        driver = ["--", os.path.join(EXAMPLES, "drivers", "c", "with-fault"), "remembered-set-short-by-one"]
        by_library = self.lockstep("--library", support.archive(), os.path.join(EXAMPLES, "references"), *driver)
        self.assertEqual((by_library.status, by_library.errors), (1, b"lockstep: line 20, car 4 3: expected 7, got nil\n"))
        by_program = self.lockstep("--lispm", support.built("lispm"), os.path.join(EXAMPLES, "references"), *driver)
        self.assertEqual(by_library, by_program)

    def test_no_library(self) -> None:
        """A library that isn't there."""
        ended = self.lockstep("--library", "/nowhere.a", os.path.join(EXAMPLES, "references"), "--", "cat")
        self.assertEqual((ended.status, ended.errors), (69, b"lockstep: no library /nowhere.a\n"))

    def test_hypothesis(self) -> None:
        """The toy agrees with the library, and with its bug it doesn't."""
        if not os.path.exists("/usr/bin/python3") or support.run(["/usr/bin/python3", "-c", "import hypothesis"]).status:
            raise unittest.SkipTest("there is no Hypothesis: apt-get install python3-hypothesis")
        run = [os.path.join(EXAMPLES, "hypothesis", "run"), "--library", support.archive()]
        ended = support.run([*run, "--examples", "100"])
        self.assertEqual((ended.status, ended.output), (0, b"100 examples, and no reply differs\n"))
        ended = support.run([*run, "--examples", "1000", "--fault"])
        self.assertEqual(ended.status, 1, ended.output)
