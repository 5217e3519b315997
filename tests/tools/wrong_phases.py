#!/usr/bin/env python3
"""wrong_phases [--count K] [--mutants N] [--from NUMBER]

Measures the judge when it has only bounds (tools/lib/judge/bounds.py): in runs of wide inputs of K commands (400 by default),
whose free choices are drawn, N replies (1,000) to flip, scavenge and reclaim are replaced, each in a run of its own, by
one that is wrong by construction: the replies before it exclude it. The line reports how many
the judge refuses at that command. Status 1 if fewer than 99 of 100.
"""
import argparse
import random
import sys
from typing import Iterator, List, NamedTuple, Optional

import free_run
from lib.inputs import drawing, session, verdict
from lib.inputs.graph import ALLOCATING
from lib.judge import checks
from lib.judge.answers import Answer, split
from lib.judge.bounds import Bounds
from lib.judge.judged_lines import Replies
from lib.judge.judging import judge

ALL_UNITS = "scavenge 4294967295"
PHASES = ("flip", "scavenge", "reclaim")


class Told(NamedTuple):
    """What the replies imply about the phase: whether a collection runs, and whether its scan has finished; None is unknown."""
    runs: Optional[bool] = False
    over: Optional[bool] = None


AFTER = {"busy": Told(True, None), "more": Told(True, False), "done": Told(True, True), "not-done": Told(True, False),
         "reclaimed": Told(False), "not-flipped": Told(False)}


def after(told: Told, answer: Answer, is_silent: bool) -> Told:
    """What is known of the phase after a command and its right reply."""
    head, reply = answer.command.head, answer.lines[0]
    if head in ALLOCATING:
        if is_silent and not (told.runs and told.over is False):
            return Told(None)
        return Told(told.runs, None) if reply == "ok" and told.over is False else told
    if head not in PHASES:
        return told
    if reply == "busy":
        return Told(True, told.over if told.runs else None)
    return Told(True, False) if reply.startswith("flipped") else AFTER[reply]


def wrong_replies(told: Told, answer: Answer) -> List[str]:
    """The replies to this command that the replies before it exclude."""
    head = answer.command.head
    if head not in PHASES:
        return []
    if told.runs is False:
        return {"flip": ["busy"], "scavenge": ["more", "done"], "reclaim": ["reclaimed", "not-done"]}[head]
    found = ["more"] if answer.command.text == ALL_UNITS else []
    if told.runs:
        found.append("flipped 0" if head == "flip" else "not-flipped")
        if head == "scavenge" and told.over:
            found.append("more")
        if head == "reclaim" and told.over is not None:
            found.append("not-done" if told.over else "reclaimed")
    return sorted(set(found) - set(answer.lines))


def places_in_bounds(found: verdict.Verdict, output: bytes) -> List[bool]:
    """For each command whether the judge has only bounds when it reaches it."""
    run, places = checks.Run(found.so_far, Replies(output), 0), []
    for command in found.commands:
        places.append(any(isinstance(one, Bounds) for one in run.hypotheses))
        run.judge(command)
    return places


class Mutant(NamedTuple):
    data: bytes
    output: bytes
    number: int


def mutants_of(data: bytes, seed: int) -> Iterator[Mutant]:
    """Wrong replies of one run, at places where there are only bounds."""
    found, output = verdict.judge(data), free_run.output(data, seed)
    answers = split(session.parse(data), output).answers
    lines, told, at = output.decode().split("\n"), Told(), 0
    for answer, loose in zip(answers, places_in_bounds(found, output)):
        for wrong in wrong_replies(told, answer) if loose else []:
            yield Mutant(data, "\n".join([*lines[:at], wrong, *lines[at + 1:]]).encode(), answer.command.number)
        told = after(told, answer, found.so_far.collects_itself())
        at += len(answer.lines)


def mutants(count: int, first: int = 1, most_of_one: int = 40) -> Iterator[Mutant]:
    """Wrong replies, without end, and not too many of one run."""
    number = first
    while True:
        data = drawing.drawn(number, drawing.What(commands=count))
        if verdict.judge(data).so_far.collects_itself():
            found = list(mutants_of(data, number))
            yield from random.Random(number).sample(found, min(most_of_one, len(found)))
        number += 1


def is_told(mutant: Mutant) -> bool:
    first = judge(mutant.data, mutant.output, 0).first
    return first is not None and first.number == mutant.number


def main() -> int:
    words = argparse.ArgumentParser(description=__doc__, formatter_class=argparse.RawDescriptionHelpFormatter)
    words.add_argument("--count", type=int, default=400)
    words.add_argument("--mutants", type=int, default=1000)
    words.add_argument("--from", type=int, default=1, dest="first")
    given = words.parse_args()
    told = sum(is_told(mutant) for mutant, _ in zip(mutants(given.count, given.first), range(given.mutants)))
    print(f"{given.count} commands, {given.mutants} wrong replies when there are only bounds: {told} refused")
    return 0 if 100 * told >= 99 * given.mutants else 1


if __name__ == "__main__":
    sys.exit(main())
