"""The option --trial of a tool: the programs that it runs are compiled from the sources, and unproved."""
import argparse

from . import program, tool


def add_option(words: argparse.ArgumentParser) -> None:
    words.add_argument("--trial", action="store_true")


def find(given: argparse.Namespace, name: str) -> str:
    """The path of the program that the arguments name, or with --trial of the one that the sources compile to."""
    if not given.trial:
        return program.find(name, getattr(given, name))
    from .scripts import trial

    try:
        found = trial.compiled(name)
    except trial.Failed as fault:
        raise tool.ToolError(str(fault) or "--trial needs the kit, see README", fault.status) from None
    if found is None:
        raise tool.ToolError("this kit leaves no compiled program to keep, so --trial can't be used here", tool.MISSING)
    return found


def is_there(given: argparse.Namespace, name: str) -> bool:
    """A program can be run, or is compiled."""
    return given.trial or program.is_there(name, getattr(given, name))
