#!/usr/bin/env python3
"""session [--library PATH] <INPUT

Answers an input line by line through a session of the library, and writes each command with its reply beside it. The shared
object is PATH, else liblispm.so in this folder, which `make` links. Ends with the status of the session; 69 if there is no
library.
"""
import argparse
import os
import sys

import lispm

HERE = os.path.dirname(os.path.realpath(__file__))


def write(text: bytes, output: bytes) -> None:
    """A line and its reply. The further lines of a reply begin with spaces."""
    replies = output.decode("ascii").split("\n")[:-1] or [""]
    for at, reply in enumerate(replies):
        print(f"{text.decode('latin-1') if at == 0 else '':24} {reply}".rstrip())


def run(library: lispm.Library) -> int:
    """Reads standard input to its end, or to the first line that is refused."""
    with library.session() as session:
        for line in sys.stdin.buffer:
            status, output = session.answer(line.rstrip(b"\n"))
            write(line.rstrip(b"\n"), output)
            if status != lispm.DONE:
                return status
        status, output = session.end()
        sys.stdout.write(output.decode("ascii"))
        return status


def main() -> int:
    words = argparse.ArgumentParser(description=__doc__, formatter_class=argparse.RawDescriptionHelpFormatter)
    words.add_argument("--library", default=os.path.join(HERE, "liblispm.so"))
    path = words.parse_args().library
    try:
        library = lispm.Library(path)
    except OSError as error:
        print(f"session: {error}: `make` links it, or name it by --library PATH", file=sys.stderr)
        return 69
    return run(library)


if __name__ == "__main__":
    sys.exit(main())
