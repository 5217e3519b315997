"""The header: it compiles by each standard, and says what the archive exports."""
import os
import re
import shutil
import subprocess
import unittest

import support


class Header(unittest.TestCase):
    def test_every_standard(self) -> None:
        """In C99, C11, C++98 and C++17, without a warning."""
        text = "#include <lispm.h>\nint main(void) { lispm_seat seat = {0, 0}; size_t needed; " \
               "return lispm_line(&seat, \"\", 0, 0, 0, &needed) + lispm_open(&seat) + lispm_main(0, 0, 0, 0, 0, 0, &needed); }\n"
        for compiler, standards in (("cc", ("c99", "c11")), ("c++", ("c++98", "c++17")), ("clang", ("c99", "c2x"))):
            if shutil.which(compiler) is None:
                continue
            for standard in standards:
                with self.subTest(compiler=compiler, standard=standard):
                    # C++98 has no <cstdint> of its own; both compilers have stdint.h.
                    language = ["-x", "c++"] if "+" in standard else ["-x", "c"]
                    ended = support.run([compiler, f"-std={standard}", *support.FLAGS, "-Wno-long-long", "-fsyntax-only", *language, "-"],
                                        text.encode())
                    self.assertEqual((ended.status, ended.errors), (0, b""))

    def test_exports(self) -> None:
        """The archive exports what the header declares, and needs of C what the page says."""
        with open(os.path.join(support.HEADER, "lispm.h")) as file:
            declared = set(re.findall(r"^\S+ (lispm_raw_\w+)\(", file.read(), re.MULTILINE))
        listed = subprocess.run(["nm", support.archive()], stdout=subprocess.PIPE, stderr=subprocess.DEVNULL, text=True).stdout
        exported = set(re.findall(r" T (lispm_\w+)$", listed, re.MULTILINE))
        self.assertEqual(exported, declared)

    def test_what_it_needs(self) -> None:
        """The whole archive, linked without any library, needs these functions of C alone."""
        path = os.path.join(support.folder(), "bare.so")
        linked = support.run(["cc", "-shared", "-nostdlib", "-o", path, "-Wl,--whole-archive", support.archive(), "-Wl,--no-whole-archive"])
        self.assertEqual(linked.status, 0, linked.errors)
        needed = subprocess.run(["nm", "-D", "--undefined-only", path], stdout=subprocess.PIPE, text=True).stdout
        names = set(re.findall(r"\bU (\w+)", needed))
        self.assertLessEqual(names, {"malloc", "realloc", "free", "memcpy", "memmove", "memset"})

    def test_version(self) -> None:
        """The header, the library and the file VERSION have one version."""
        with open(os.path.join(support.TOP, "VERSION")) as file:
            major, minor, patch = map(int, file.read().split("."))
        wanted = major * 1_000_000 + minor * 1000 + patch
        with open(os.path.join(support.HEADER, "lispm.h")) as file:
            self.assertEqual(re.findall(r"^#define LISPM_VERSION (\d+)$", file.read(), re.MULTILINE), [str(wanted)])
        path = os.path.join(support.folder(), "version")
        text = b"#include <lispm.h>\nint main(void) { return lispm_version() != LISPM_VERSION; }\n"
        self.assertEqual(support.run(["cc", *support.FLAGS, "-o", path, "-x", "c", "-", "-x", "none", support.archive()], text).errors, b"")
        self.assertEqual(support.run([path]).status, 0)
