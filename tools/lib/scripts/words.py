"""The arguments of each program: which it accepts, and why it refuses others.

PROGRAMS has a row for each program. To add a program, write a row here, a file bin/NAME like bin/lispm, a file
bin/NAME.usage and a page man/NAME.1; `start`, `bin/build` and `bin/install` use the row.
"""
import os
from typing import Dict, List, NamedTuple, Optional, Tuple

MOST = 4_294_967_295


class Refused(Exception):
    """A program refuses its arguments; the text is the cause."""


class Mode(NamedTuple):
    """The options that a mode needs, those that it may have, and whether it reads standard input."""
    needs: Tuple[str, ...] = ()
    may_have: Tuple[str, ...] = ()
    reads: bool = True


class Option(NamedTuple):
    """An option's value, a number: its letter in the usage, and the greatest."""
    letter: str
    most: int


class Program(NamedTuple):
    """The modes by name ("" alone if the program has one mode), and the options. If `words` is false it takes no argument."""
    modes: Dict[str, Mode]
    options: Dict[str, Option]
    words: bool = True


PROGRAMS: Dict[str, Program] = {
    "lispm": Program(
        modes={
            "replay": Mode(),
            "exercise": Mode(needs=("number", "count"), reads=False),
            "print": Mode(),
            "compile": Mode(),
            "why": Mode(needs=("object",)),
            "census": Mode(),
        },
        options={"object": Option("K", MOST), "number": Option("N", MOST), "count": Option("K", 1_000_000)},
    ),
    "lispm_bands": Program(modes={"": Mode()}, options={}, words=False),
    "lispm_inside": Program(modes={"": Mode(may_have=("fail",))}, options={"fail": Option("N", MOST)}),
}


class Asked(NamedTuple):
    """What accepted arguments request: the program's own arguments, whether it reads standard input, and the file that replaces
    standard input, if any."""
    words: List[str]
    reads: bool
    file: Optional[str]


def listed(words: List[str]) -> str:
    """The names to choose from: `a, b or c`."""
    return " or ".join([", ".join(words[:-1])] * (len(words) > 1) + words[-1:])


def like(word: str, known: List[str]) -> str:
    """The known name that is most like this word; else all of them."""
    import difflib

    near = difflib.get_close_matches(word.lower(), known, 1)
    if word.lower() in known:
        return f"write {word.lower()}"
    return f"did you mean {near[0]}?" if near else f"use {listed(known)}"


def unknown_option(program: Program, word: str) -> Refused:
    """The cause if a word looks like an option and is none."""
    known = [f"--{name}" for name in program.options] + ["--trial", "--help", "--version"]
    return Refused(f"unknown option {word!r}: {like(word, known)}")


def parts_of(program: Program, words: List[str]) -> Tuple[List[Tuple[str, str]], List[str]]:
    """The options with their values, and the other arguments: the mode and a file. After `--` every argument is one of these."""
    options: List[Tuple[str, str]] = []
    others: List[str] = []
    left = iter(words)
    for word in left:
        if word == "--":
            others.extend(left)
        elif word.startswith("--"):
            name, equals, value = word[2:].partition("=")
            if name not in program.options:
                raise unknown_option(program, f"--{name}")
            given: Optional[str] = value
            if not equals:
                given = next(left, None)
            if given is None:
                raise Refused(f"--{name} needs a value: --{name} {program.options[name].letter}")
            options.append((name, given))
        else:
            others.append(word)
    return options, others


def is_number(text: str) -> bool:
    """Decimal digits without a sign and without a leading zero."""
    return text.isascii() and text.isdigit() and (text == "0" or text[0] != "0")


def test_value(name: str, option: Option, value: str) -> None:
    """Refuses a value that is no number, or too large."""
    if value.startswith("#") and is_number(value[1:]):
        raise Refused(f"--{name} is the number without '#': --{name} {value[1:]}")
    if not is_number(value) or int(value) > option.most:
        form = "" if is_number(value) else ", in digits alone"
        raise Refused(f"--{name} is 0 to {option.most}{form}, and not {value!r}")


def test_options(program: Program, name: str, options: List[Tuple[str, str]]) -> None:
    """Refuses options that occur twice, don't belong to the mode, are missing, or have a value that is no number."""
    mode, given = program.modes[name], [option for option, _ in options]
    for option in given:
        if given.count(option) > 1:
            raise Refused(f"--{option} occurs twice")
        if option not in mode.needs + mode.may_have:
            raise Refused(f"{name or 'it'} takes no --{option}")
    for option in mode.needs:
        if option not in given:
            raise Refused(f"{name or 'it'} needs --{option} {program.options[option].letter}")
    for option, value in options:
        test_value(option, program.options[option], value)


def unknown_mode(program: Program, word: str) -> Refused:
    """The cause if an argument should be a mode and is none."""
    modes = list(program.modes)
    if word.startswith("-") and word != "-":
        return unknown_option(program, word)
    if os.path.isfile(word):
        return Refused(f"a mode is missing before the file {word!r}: use {listed(modes)}")
    return Refused(f"unknown mode {word!r}: {like(word, modes)}")


def second_word(program: Program, name: str, word: str) -> Refused:
    """The cause if an argument after the mode is no file that can be read."""
    mode, number = program.modes[name], word.lstrip("#")
    if word.startswith("-") and word != "-":
        return unknown_option(program, word)
    if word and word in program.modes:
        return Refused(f"{name} and {word} are two modes: use one")
    if mode.needs + mode.may_have and is_number(number):
        option = (mode.needs + mode.may_have)[0]
        return Refused(f"{name or 'it'} wants the number as an option, without '#': --{option} {number}")
    if not mode.reads:
        return Refused(f"{name or 'it'} reads nothing, so it takes no {word!r}")
    if os.path.isdir(word):
        return Refused(f"{word!r} is a folder: {name or 'it'} reads a file")
    return Refused(f"no file {word!r}: {name or 'it'} reads standard input: use <FILE, or the name of a file that is there")


def is_file_for(program: Program, name: str, word: str) -> bool:
    """The argument after the mode names a file that the mode reads."""
    return word not in program.modes and program.modes[name].reads and os.path.exists(word) and not os.path.isdir(word)


def mode_of(program: Program, others: List[str]) -> Tuple[str, Optional[str]]:
    """The mode, and the file that is named after it."""
    name, *files = [""] * ("" in program.modes) + others or [""]
    if name not in program.modes:
        raise unknown_mode(program, name) if others else Refused(f"a mode is missing: use {listed(list(program.modes))}")
    for word in files:
        if not is_file_for(program, name, word):
            raise second_word(program, name, word)
    if len(files) > 1:
        raise Refused(f"{name or 'it'} reads one file, and there are {len(files)}")
    return name, files[0] if files else None


def read_words(name: str, words: List[str]) -> Asked:
    """The mode and the options that a program's arguments request; raises Refused."""
    program = PROGRAMS[name]
    if not program.words:
        if words:
            raise Refused(f"it takes no arguments, and reads standard input: use {name} <FILE")
        return Asked([], True, None)
    options, others = parts_of(program, words)
    mode, file = mode_of(program, others)
    test_options(program, mode, options)
    if file is not None:
        words = [mode] * bool(mode) + [f"--{option}={value}" for option, value in options]
    return Asked(words, program.modes[mode].reads, file)
