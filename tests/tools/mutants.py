"""Short inputs with the replies of drawn runs, and with one of the replies changed; the change may be right, too."""
import random
from typing import Iterator, List, Tuple

import free_run
from lib.inputs import drawing, session, verdict
from lib.judge.answers import Answer, split

Replies = List[List[str]]
PHASES = ("busy", "more", "done", "not-flipped", "not-done", "reclaimed", "flipped 0", "flipped 1")
NEAR = (-3, -2, -1, 1, 2, 3, 4, 6)
MOST_CHANGED = 10           # replies of one run
WEIGHTS = (("stray", 25), ("stats", 12), ("set", 10), ("grow", 6), ("eq", 0), ("size", 0), ("get", 1), ("put", 4), ("part", 4))


def changed_at(line: str, place: int, by: int) -> str:
    words = line.split(" ")
    words[place] = str(max(0, int(words[place]) + by))
    return " ".join(words)


def refusals(answer: Answer, world: verdict.World) -> Replies:
    """An allocation that was done, refused with each account that could be."""
    words = answer.command.words
    if words[0] not in ("cons", "make"):
        return []
    area = world.areas[world.area_numbers[words[2]]]
    wanted = 2 if words[0] == "cons" else int(words[4]) + 1
    accounts = range(max(0, area.quota - wanted + 1), area.quota + 1)
    return [[f"exhausted {area.name} {charged} {wanted} {area.quota}"] for charged in accounts]


def changes(answer: Answer, world: verdict.World) -> Replies:
    """Other replies to a command whose reply may be free."""
    head, lines = answer.command.head, answer.lines
    if head in ("flip", "scavenge", "reclaim"):
        return [[word] for word in PHASES if [word] != lines]
    if head == "stats":
        return [[*lines[:at], changed_at(line, 2, by), *lines[at + 1:]] for at, line in enumerate(lines) for by in NEAR]
    if lines[0].startswith("exhausted"):
        return [["ok"], *([changed_at(lines[0], 2, by)] for by in NEAR)]
    return refusals(answer, world) if lines == ["ok"] else []


def of_short_input(number: int) -> Iterator[Tuple[bytes, Replies]]:
    """A run of a short input, then runs with one reply changed."""
    draw = random.Random(number)
    data = drawing.drawn(number, drawing.What(commands=draw.choice((20, 30, 40)), every=0, weights=WEIGHTS))
    answers = split(session.parse(data), free_run.output(data, number)).answers
    replies = [answer.lines for answer in answers]
    yield data, replies
    world = verdict.judge(data).so_far
    possible = [(at, other) for at, answer in enumerate(answers) for other in changes(answer, world)]
    for at, other in draw.sample(possible, min(MOST_CHANGED, len(possible))):
        yield data, [*replies[:at], other, *replies[at + 1:]]
