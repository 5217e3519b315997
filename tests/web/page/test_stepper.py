"""tools/stepper and web/page: a page that opens with a session, and mistakes in a line."""
import json
import os
import re
import subprocess
import unittest
from typing import NamedTuple

from support import TOP

from lib.pictures import page

has_module = os.path.isfile(page.MODULE)
needs_module = unittest.skipUnless(has_module, "web/lispm.wasm isn't there")
START = b"lispm-world 1\nspace 16 32 8 1 2\narea work dynamic 4\ntrace\n"


class Ended(NamedTuple):
    status: int
    output: bytes
    errors: str


def run(*words: str, given: bytes = b"") -> Ended:
    ended = subprocess.run(list(words), input=given, stdout=subprocess.PIPE, stderr=subprocess.PIPE, cwd=TOP)
    return Ended(ended.returncode, ended.stdout, ended.stderr.decode())


def library_of(made: bytes) -> dict:
    found = re.search(rb'<script type="application/json" id="library">(.*?)</script>', made, re.S)
    assert found
    return json.loads(found.group(1))


@needs_module
class Made(unittest.TestCase):
    def test_the_page_is_what_its_parts_make(self) -> None:
        self.assertEqual(run("web/page", "--check"), (0, b"", ""))

    def test_a_page_opens_with_its_session(self) -> None:
        made = run("tools/stepper", "examples/collection")
        self.assertEqual((made.status, made.errors), (0, ""))
        self.assertIn(b'<body data-session="own">', made.output)
        with open(os.path.join(TOP, "examples", "collection"), encoding="latin-1") as file:
            self.assertEqual(library_of(made.output)["sessions"][0], {"name": "own", "group": "Yours", "title": "collection", "text": file.read()})

    def test_text_of_a_session_ends_no_script(self) -> None:
        made = run("tools/stepper", "-", given=b"; </script><script>alert(1)</script>\n" + START + b"end\n")
        self.assertEqual(made.output.count(b"<script>alert"), 0)
        self.assertEqual(library_of(made.output)["sessions"][0]["text"].split("\n")[0], "; </script><script>alert(1)</script>")

    def test_a_library_of_all_sessions(self) -> None:
        names = [one["name"] for one in library_of(run("tools/stepper", "examples/collection").output)["sessions"]]
        self.assertEqual(len([name for name in names if name.startswith("lesson/")]), 14)
        self.assertLessEqual({"collection", "lists", "lecture/die-young", "lecture/cache", "lecture/leak"}, set(names))

    def test_a_bundle_has_no_import(self) -> None:
        for path in ("src/main.mjs", "src/worker.mjs"):
            self.assertEqual(re.findall(r"^(?:import|export) .*$", page.bundle(path), re.M), [])


class Mistakes(unittest.TestCase):
    def test_each_is_one_line(self) -> None:
        self.assertEqual(run("tools/stepper", "/no/file"), (2, b"", "stepper: /no/file: No such file or directory\n"))
        self.assertEqual(run("tools/stepper", "-", given=b"; Mine.\n" + START + b"conz\nend\n"), (1, b"", "stepper: error line 6: unknown command\n"))
        self.assertEqual(run("web/page", "--module", "/no/module").status, 69)

    def test_lectures_are_what_their_script_makes(self) -> None:
        self.assertEqual(run("examples/lectures/make", "--check"), (0, b"", ""))
        self.assertEqual(run("examples/lectures/make", "--check", "--seed", "2").status, 1)
        self.assertEqual(run("examples/lectures/make", "no").status, 2)


if __name__ == "__main__":
    unittest.main()
