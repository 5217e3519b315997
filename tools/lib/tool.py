"""What every tool does alike: its words, its errors, its statuses and its standard input.

A tool is an executable file `tools/NAME` of this form:

    #!/usr/bin/env python3
    \"\"\"NAME WORDS

    What it does. This text is its --help.
    \"\"\"
    from argparse import Namespace

    from lib import tool

    def words() -> tool.Words:
        words = tool.Words(__doc__)
        words.add_argument("input")
        return words

    def main(given: Namespace) -> int:
        print(len(tool.read(given.input)))
        return tool.RIGHT

    if __name__ == "__main__":
        tool.run(words(), main)

A script in another folder has the same form. Each folder with scripts has a file `lib.py` that leads to this folder, because
Python looks for modules in the folder of the script, also if the script was started through a link.
"""
import argparse
import os
import sys
from typing import Callable, List, NoReturn

RIGHT = 0        # success: the result is as required
WRONG = 1        # a reply is wrong, an input is refused
WORDS = 2        # wrong arguments, or a file that they name
MISSING = 69     # something isn't installed, or isn't built
STOPPED = 130    # ctrl-C, as a shell reports it
CLOSED = 141     # the reader of standard output has closed it, as a shell reports it


class ToolError(Exception):
    """A mistake of the user: it is printed as the line `TOOL: CAUSE`, and ends the tool with the status."""

    def __init__(self, cause: str, status: int = WORDS):
        super().__init__(cause)
        self.cause = cause
        self.status = status


class Words(argparse.ArgumentParser):
    """The words of a tool. Its docstring is its help, so no word needs a help of its own."""

    def __init__(self, docstring: str):
        super().__init__(description=docstring, allow_abbrev=False)

    def format_help(self) -> str:
        return (self.description or "").strip() + "\n"

    def error(self, message: str) -> NoReturn:
        raise ToolError(f"{message}; see {self.prog} --help")


def name() -> str:
    """The name that this tool was started by."""
    return os.path.basename(sys.argv[0])


def run(words: argparse.ArgumentParser, main: Callable[[argparse.Namespace], int]) -> NoReturn:
    """Runs a tool's main on its words and ends with the status that it answers. A mistake is one line."""
    try:
        status = main(words.parse_args())
        sys.stdout.flush()
    except ToolError as error:
        tell(error.cause)
        status = error.status
    except BrokenPipeError:
        leave_standard_output()
        status = CLOSED
    except OSError as error:
        leave_standard_output()
        tell(f"{error.filename or 'standard output'}: {error.strerror}")
        status = WRONG
    except KeyboardInterrupt:
        tell("stopped")
        status = STOPPED
    sys.exit(status)


def tell(cause: str) -> None:
    """Writes the line `TOOL: CAUSE` on standard error."""
    end_progress()
    print(f"{name()}: {cause}", file=sys.stderr)


def leave_standard_output() -> None:
    """Lets the interpreter's last flush go nowhere, since standard output takes no more."""
    os.dup2(os.open(os.devnull, os.O_WRONLY), 1)


def read(path: str) -> bytes:
    """The bytes of a file; `-` is standard input."""
    try:
        if path == "-":
            return sys.stdin.buffer.read()
        with open(path, "rb") as file:
            return file.read()
    except OSError as error:
        raise ToolError(f"{path}: {error.strerror}") from None


def read_all(*paths: str) -> List[bytes]:
    """The bytes of these files, of which one may be `-`."""
    if paths.count("-") > 1:
        raise ToolError("standard input can be read once only")
    return [read(path) for path in paths]


def write(path: str, data: bytes) -> None:
    """Writes a file; `-` is standard output."""
    try:
        if path == "-":
            sys.stdout.buffer.write(data)
            return
        with open(path, "wb") as file:
            file.write(data)
    except BrokenPipeError:
        raise
    except OSError as error:
        raise ToolError(f"{path}: {error.strerror}") from None


# ------------------------------------------------------------------- progress

shows_progress = False


def progress(text: str) -> None:
    """Shows how far a long work is, on one line of the terminal. Nothing if standard error is no terminal."""
    global shows_progress
    if sys.stderr is not None and sys.stderr.isatty():
        shows_progress = True
        sys.stderr.write(f"\r\x1b[K{text}")
        sys.stderr.flush()


def end_progress() -> None:
    """Takes the line of progress away."""
    global shows_progress
    if shows_progress:
        shows_progress = False
        sys.stderr.write("\r\x1b[K")
        sys.stderr.flush()
