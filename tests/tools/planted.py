"""Wrong replies in otherwise right outputs: for each kind of error the ways to make a reply wrong.

A way takes a command and its right reply and returns wrong lines for it, or nothing if it doesn't fit. Accounts are
exact as long as nothing was reclaimed, so a changed charge is wrong only before the first reclaim.
"""
import random
from typing import Callable, Dict, Iterator, List, NamedTuple, Optional

import free_run
from lib.inputs import drawing, session, verdict
from lib.judge.answers import Answer, split

Way = Callable[[Answer, verdict.World], List[List[str]]]


class Fault(NamedTuple):
    """An input, replies of which one is wrong, a status, and the place at which the judge must find it."""
    data: bytes
    output: bytes
    status: int
    number: int
    line: int


def changed(text: str, place: int, by: int = 1) -> str:
    """The text with the number at this place of its words changed."""
    words = text.split(" ")
    words[place] = str(int(words[place]) + by)
    return " ".join(words)


def renamed(text: str, place: int, word: str) -> str:
    words = text.split(" ")
    words[place] = word
    return " ".join(words)


def value(answer: Answer, _: verdict.World) -> List[List[str]]:
    reply, head = answer.lines[0], answer.command.head
    if head in ("car", "cdr", "get", "size") and (reply == "nil" or reply == "cons" or reply.lstrip("-").isdigit()):
        others = {"nil": ["0", "t"], "cons": ["nil", "1"]}
        return [[other] for other in others.get(reply, ["nil", "cons", str(int(reply) + 1) if reply[-1].isdigit() else ""])]
    if head in ("set", "move", "rplaca", "rplacd", "put", "page-out") and reply == "ok":
        return [["nil"], ["OK"], ["ok "], ["done"]]
    return []


def wrong_type(answer: Answer, _: verdict.World) -> List[List[str]]:
    head, reply = answer.command.head, answer.lines[0]
    if reply == "wrong-type":
        return [["ok"], ["nil"], ["wrong-types"]]
    return [["wrong-type"]] if head in ("car", "rplacd", "size") and not reply.startswith("block") else []


def no_field(answer: Answer, _: verdict.World) -> List[List[str]]:
    reply = answer.lines[0]
    if reply.startswith("no-field"):
        return [[changed(reply, 1)], [changed(reply, 1, 7)], ["nil"], ["no-field"]]
    return [["no-field 1"]] if answer.command.head == "get" and reply == "nil" else []


def eq(answer: Answer, _: verdict.World) -> List[List[str]]:
    return [["nil" if answer.lines[0] == "t" else "t"], ["wrong-type"]] if answer.command.head == "eq" else []


def block(answer: Answer, _: verdict.World) -> List[List[str]]:
    reply = answer.lines[0]
    return [[changed(reply, 1)], [changed(reply, 2)], ["cons"], ["block"]] if reply.startswith("block") else []


def exhausted_word(place: int) -> Way:
    """A refused allocation with another word at this place: the area, what is charged, what is wanted, the quota."""
    def way(answer: Answer, world: verdict.World) -> List[List[str]]:
        reply = answer.lines[0]
        if not reply.startswith("exhausted"):
            return []
        others = [area.name for area in world.areas if area.name != answer.words[1]] + ["other"]
        return [[renamed(reply, 1, others[0])]] if place == 1 else [[changed(reply, place)], [changed(reply, place, 100)]]
    return way


def not_exhausted(answer: Answer, world: verdict.World) -> List[List[str]]:
    """A refused allocation that is done, or the other way round."""
    if answer.lines[0].startswith("exhausted"):
        return [["ok"]]
    if answer.lines == ["ok"] and answer.command.head in ("cons", "list", "make"):
        area = world.areas[world.area_numbers[answer.command.words[2]]]
        return [[f"exhausted {area.name} {area.quota} 2 {area.quota}"]]
    return []


def stats(answer: Answer, _: verdict.World) -> List[List[str]]:
    if answer.command.head != "stats":
        return []
    first, *others = answer.lines
    return [[changed(first, 2), *others], [*others, changed(first, 3)] if not others else [changed(first, 3), *others],
            [renamed(first, 1, "other"), *others], [first + " ", *others]]


def dump(answer: Answer, _: verdict.World) -> List[List[str]]:
    """A line of a dump that is another, isn't there, or is there twice."""
    if answer.command.head != "dump":
        return []
    lines = answer.lines
    middle = len(lines) // 2
    return [lines[:-1] + ["end"], lines[:middle] + ["cons a0 1 1 1"] + lines[middle + 1:],
            lines[:1] + lines[2:], lines[:2] + lines[1:]]


def phase(answer: Answer, world: verdict.World) -> List[List[str]]:
    """A reply that belongs to another phase, or to none. The phase is free if levels are collected automatically."""
    reply = answer.lines[0]
    if answer.command.head not in ("flip", "scavenge", "reclaim"):
        return []
    misspelled = [[reply + " "], ["ok"], [f"flipped {16 * world.space.regions + 1}"], ["flipped"], ["flipped 00"]]
    others = {"busy": ["flipped 0"], "not-flipped": ["done", "more", "reclaimed", "not-done"]}
    wrong = ["busy"] if reply.startswith("flipped") else others.get(reply, ["not-flipped"])
    return misspelled + [[other] for other in wrong if not world.collects_itself()]


WAYS: Dict[str, List[Way]] = {
    "value": [value], "wrong-type": [wrong_type], "no-field": [no_field], "eq": [eq], "block": [block],
    "stats": [stats], "dump": [dump], "phase": [phase], "exhausted": [not_exhausted],
}
EXHAUSTED = {"area": 1, "charged": 2, "wanted": 3, "quota": 4}
NEEDS_ACCOUNTS = ("stats", "exhausted")


def inputs() -> Iterator[bytes]:
    """Wide inputs, without end."""
    number = 0
    while True:
        number += 1
        yield drawing.drawn(number, drawing.What(commands=100, every=10))


def faults(kind: str, ways: Optional[List[Way]] = None) -> Iterator[Fault]:
    """Wrong replies of a kind, without end: at most three in an input."""
    for seed, data in enumerate(inputs()):
        world = verdict.judge(data).so_far
        trace = session.parse(data)
        answers = split(trace, free_run.output(data, seed)).answers
        last = first_collection(world, answers) if kind in NEEDS_ACCOUNTS else len(answers)
        possible = [(at, lines) for at in range(last) for way in (ways or WAYS[kind]) for lines in way(answers[at], world)]
        draw = random.Random(seed)
        for at, lines in draw.sample(possible, min(3, len(possible))):
            yield planted(data, answers, at, lines)


def first_collection(world: verdict.World, answers: List[Answer]) -> int:
    """How many commands are answered before an account may be free."""
    if world.collects_itself():
        return 0
    return next((at for at, answer in enumerate(answers) if answer.lines == ["reclaimed"]), len(answers))


def planted(data: bytes, answers: List[Answer], at: int, lines: List[str]) -> Fault:
    """The input with these wrong lines in place of the reply to command number `at`."""
    replies = [answer.lines for answer in answers]
    replies[at] = lines
    return Fault(data, text(replies), 0, at + 1, answers[at].command.line)


def text(replies: List[List[str]]) -> bytes:
    return "".join(line + "\n" for lines in replies for line in lines).encode("latin-1")
