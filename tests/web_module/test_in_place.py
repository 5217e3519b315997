"""The module in the place of a program that isn't built: what runs it, and that this is reported."""
import os
import shutil
import subprocess
import tempfile
import unittest
from typing import Dict, Optional, Tuple

from support import TOP, Answer, needs_node

COPIED = ["bin", "examples", "tools", "web", "VERSION", "crates.txt", "docs"]
SAID = "isn't built here, so node runs web/lispm.wasm in its place"


@needs_node
class InPlace(unittest.TestCase):
    """In a copy of the repository without programs and without rt."""

    top = ""
    environment: Dict[str, str] = {}

    @classmethod
    def setUpClass(cls) -> None:
        cls.top = tempfile.mkdtemp(prefix="lispm-tree-")
        os.mkdir(os.path.join(cls.top, "crates"))
        for name in COPIED:
            source, to = os.path.join(TOP, name), os.path.join(cls.top, name)
            shutil.copytree(source, to, symlinks=True) if os.path.isdir(source) else shutil.copy2(source, to)
        commands = os.path.join(cls.top, "commands")
        os.mkdir(commands)
        for name in ("python3", "sh", "env", "node", "dirname", "git"):
            os.symlink(shutil.which(name) or "/nowhere", os.path.join(commands, name))
        cls.environment = {"PATH": commands, "HOME": cls.top}

    @classmethod
    def tearDownClass(cls) -> None:
        shutil.rmtree(cls.top)

    def run_here(self, command: str, *given: str, data: bytes = b"", environment: Optional[Dict[str, str]] = None) -> Tuple[Answer, str]:
        """How a command of the copy ended, and what it said."""
        ended = subprocess.run([os.path.join(self.top, command), *given], input=data, cwd=self.top, stdout=subprocess.PIPE,
                               stderr=subprocess.PIPE, env={**self.environment, **(environment or {})})
        return Answer(ended.returncode, ended.stdout), ended.stderr.decode()

    def check(self, part: bytes, command: str, *given: str, data: bytes = b"") -> None:
        """A command runs, writes this among other things, and says that the module runs."""
        with self.subTest(command=command):
            answer, said = self.run_here(command, *given, data=data)
            self.assertEqual(answer.status, 0, said)
            self.assertIn(part, answer.output)
            self.assertIn(SAID, said)
            self.assertLess(said.count(SAID), 3)

    def test_the_tools(self) -> None:
        self.check(b"    set 0 1                  ok\n", "examples/show", "identity")
        self.check(b"lispm-world 2", "examples/show", "shared.sexpr")
        self.check(b"region", "tools/picture", "examples/identity")
        self.check(b"#4  work cons  #0  #0\n", "tools/objects", "examples/identity")
        self.check(b"command,", "tools/accounts", "examples/identity")
        self.check(b'"reply":"t"', "tools/replies", "examples/identity")
        self.check(b"", "examples/tour/run", "1")

    def test_the_stepper(self) -> None:
        """Its page has the module in it, so no program is missing."""
        answer, said = self.run_here("tools/stepper", "examples/identity")
        self.assertEqual((answer.status, said), (0, ""))
        self.assertIn(b"</html>", answer.output)

    def test_a_program_that_is_named(self) -> None:
        """Nothing takes its place."""
        for command, given, name in (("tools/picture", ["examples/identity"], "LISPM_INSIDE"), ("examples/show", ["identity"], "LISPM")):
            answer, said = self.run_here(command, *given, environment={name: "/nowhere"})
            self.assertEqual(answer.status, 69, said)
            self.assertNotIn(SAID, said)

    def test_without_node(self) -> None:
        """The error says what to do."""
        path = os.path.join(self.top, "commands", "node")
        os.rename(path, path + ".away")
        try:
            answer, said = self.run_here("tools/picture", "examples/identity")
            self.assertEqual((answer.status, len(said.splitlines())), (69, 1))
            self.assertIn("bin/build lispm_inside", said)
            self.assertIn("install node", said)
        finally:
            os.rename(path + ".away", path)


if __name__ == "__main__":
    unittest.main()
