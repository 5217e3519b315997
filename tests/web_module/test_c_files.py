"""The two C files of the module."""
import os
import shutil
import subprocess
import tempfile
import unittest

from support import HERE, Answer, WithModule, needs_node


@needs_node
class Heap(WithModule):
    def test_blocks_keep_their_bytes(self) -> None:
        """Blocks of random sizes are taken and freed, and none has a byte of another."""
        self.assertEqual(self.module.answer("heap", [], b""), Answer(0, b"20000 blocks"))


class Wide(unittest.TestCase):
    @unittest.skipUnless(shutil.which("cc"), "there is no C compiler")
    def test_wide_numbers(self) -> None:
        """As the processor multiplies and shifts them."""
        with tempfile.TemporaryDirectory() as folder:
            made = os.path.join(folder, "wide_test")
            subprocess.run(["cc", "-O1", "-o", made, os.path.join(HERE, "wide_test.c")], check=True)
            ended = subprocess.run([made], stdout=subprocess.PIPE)
        self.assertEqual((ended.returncode, ended.stdout), (0, b""))


if __name__ == "__main__":
    unittest.main()
