"""Runs both programs at a moment of an input, and judges what `lispm_inside` shows of it."""
import subprocess
from typing import List, NamedTuple, Optional, Sequence

from judge import check_flip, check_since_flip, judge
from machine import HEAD, Machine, read_machine
from wrong import need

SECONDS = 60
PROBES = ["stats", "dump"]


class Programs(NamedTuple):
    lispm: str
    inside: str


class Input(NamedTuple):
    """The lines of a world up to `trace`, the names of its areas, and commands."""
    world: List[str]
    names: List[str]
    commands: List[str]

    def text(self) -> bytes:
        return "".join(line + "\n" for line in [*self.world, *self.commands, "end"]).encode()

    def cut(self, count: int) -> "Input":
        """The input with its first commands alone."""
        return self._replace(commands=self.commands[:count])

    def probed(self) -> "Input":
        """The input with `stats` and `dump` after its commands."""
        return self._replace(commands=self.commands + PROBES)

    def collects_by_itself(self) -> bool:
        return any(line.startswith("capacity ") and line.strip(" 0") != "capacity" for line in self.world)


class Ended(NamedTuple):
    status: int
    output: bytes


class Shown(NamedTuple):
    """What `lispm_inside` wrote: the lines of the replies, and the machine."""
    replies: List[str]
    machine: Machine


def run(program: str, words: Sequence[str], data: bytes) -> Ended:
    ended = subprocess.run([program, *words], input=data, stdout=subprocess.PIPE, timeout=SECONDS)
    return Ended(ended.returncode, ended.stdout)


def lines_of(output: bytes) -> List[str]:
    """The lines of an output, each of which ends in a line feed."""
    lines = output.decode("ascii").split("\n")
    need(lines.pop() == "", "the output doesn't end in a line feed")
    return lines


def shown_by(output: bytes) -> Shown:
    """The two parts of an output of status 0."""
    lines = lines_of(output)
    need(lines.count(HEAD) == 1, f"{lines.count(HEAD)} lines '{HEAD}'")
    at = lines.index(HEAD)
    return Shown(lines[:at], read_machine(lines[at:]))


def show(programs: Programs, given: Input, words: Sequence[str] = ()) -> Shown:
    ended = run(programs.inside, words, given.text())
    need(ended.status == 0, f"lispm_inside has status {ended.status}: {ended.output[-80:]!r}")
    return shown_by(ended.output)


def answers_of(given: Input, replies: List[str]) -> List[List[str]]:
    """The lines that answer each command."""
    answers, at = [], 0
    for command in given.commands:
        size = len(given.names) if command == "stats" else 1
        if command == "dump" and replies[at:at + 1] != ["fault"]:
            size = replies.index("end-world", at) + 1 - at
        answers.append(replies[at:at + size])
        at += size
    need(at == len(replies) and all(answers), f"{len(replies)} lines of replies, and {at} were expected")
    return answers


def reply_lines(programs: Programs, given: Input) -> List[str]:
    """What lispm replies."""
    ended = run(programs.lispm, ["replay"], given.text())
    need(ended.status == 0, f"lispm has status {ended.status}")
    return lines_of(ended.output)


def check_world(given: Input, machine: Machine) -> None:
    """The space, the areas and the capacities are those of the input."""
    areas = [f"area {name} {area.kind} {area.quota}" for name, area in zip(given.names, machine.areas)]
    need(areas == [line for line in given.world if line.startswith("area ")], "the areas aren't those of the input")
    need("space " + " ".join(map(str, machine.space)) == given.world[1], "the space isn't that of the input")
    capacity = "capacity " + " ".join(map(str, machine.capacity))
    stated = [line for line in given.world if line.startswith("capacity ")]
    need([capacity] == stated or not (stated or any(machine.capacity)), "the capacities aren't those of the input")


def stats_of(given: Input, machine: Machine) -> List[str]:
    """What `stats` has to reply, by the accounts that the machine shows."""
    return [f"area {name} {area.charged} {area.quota}" for name, area in zip(given.names, machine.areas)]


def may_free(given: Input, replies: List[str]) -> bool:
    """A collection may have ended in this run."""
    return "reclaimed" in replies or given.collects_by_itself()


def judge_shown(given: Input, shown: Shown, failed: bool, probes: List[str]) -> None:
    """Judges a machine by itself, and by what `stats` and `dump` reply there (from `fault` nothing follows)."""
    machine = shown.machine
    check_world(given, machine)
    graph = judge(machine, failed, may_free(given, shown.replies))
    stats, dump = probes[:len(given.names)], probes[len(given.names):]
    need(stats == stats_of(given, machine), "the accounts aren't those of stats")
    need(dump == ["fault"] or dump == graph.dump(given.names), "the graph of the words isn't that of the dump")


def latest_flip(answers: List[List[str]]) -> Optional[int]:
    """The place of the last command that was answered `flipped P`."""
    found = [at for at, lines in enumerate(answers) if lines[0].startswith("flipped ")]
    return found[-1] if found else None


def judge_flip(programs: Programs, given: Input, shown: Shown) -> None:
    """Judges the machine after the latest flip, and compares the later one with it if there can't have been another flip."""
    answers = answers_of(given, shown.replies)
    at = latest_flip(answers)
    if at is None:
        return
    flipped = show(programs, given.cut(at + 1)).machine
    check_flip(flipped, int(answers[at][0].split()[1]))
    if not given.collects_by_itself():
        check_since_flip(flipped, shown.machine)


def judge_moment(programs: Programs, given: Input) -> Machine:
    """Judges what is shown after the last command of an input of which every command is answered."""
    shown = show(programs, given)
    replies = reply_lines(programs, given.probed())
    need(replies[:len(shown.replies)] == shown.replies, "the replies aren't lispm's")
    judge_shown(given, shown, False, replies[len(shown.replies):])
    judge_flip(programs, given, shown)
    return shown.machine


def fault_of(answers: List[List[str]]) -> Optional[int]:
    """The place of the command that was answered `fault`: of one at most, since one call fails."""
    found = [at for at, lines in enumerate(answers) if lines == ["fault"]]
    need(len(found) < 2, "one call fails, and two commands reply `fault`")
    return found[0] if found else None


def came_to(shown: Shown, failing: int) -> bool:
    """The call of this number was made."""
    return shown.machine.writes + shown.machine.reads >= failing


def judge_failing(programs: Programs, given: Input, failing: int) -> bool:
    """Judges a run in which one page call fails, after its last command and after the one in which it failed. Returns whether
    the run made that call."""
    words = ["--fail", str(failing)]
    shown, probed = show(programs, given, words), show(programs, given.probed(), words)
    at, failed = fault_of(answers_of(given, shown.replies)), came_to(shown, failing)
    need((at is not None) == failed, "`fault` is replied if and only if the call was made")
    need(probed.replies[:len(shown.replies)] == shown.replies, "stats and dump change the replies before them")
    judge_shown(given, shown, failed, probed.replies[len(shown.replies):])
    judge(probed.machine, came_to(probed, failing), may_free(given, shown.replies))
    if at is not None:
        judge_fault(programs, given, at, words)
    return failed


def judge_fault(programs: Programs, given: Input, at: int, words: List[str]) -> None:
    """Judges the machine after the command in which the call failed: it has the graph and, if no collection can have ended
    there, the accounts of before that command, and the replies were lispm's."""
    shown, before = show(programs, given.cut(at + 1), words), given.cut(at)
    replies = reply_lines(programs, before.probed())
    count = len(shown.replies) - 1
    need(replies[:count] == shown.replies[:count], "the replies before `fault` aren't lispm's")
    need(shown.replies[count] == "fault", "no reply `fault` if the input is cut after it")
    graph = judge(shown.machine, True, may_free(given, shown.replies))
    stats, dump = replies[count:count + len(given.names)], replies[count + len(given.names):]
    need(dump == graph.dump(given.names), "the command that replied `fault` changed the graph")
    need(given.collects_by_itself() or stats == stats_of(given, shown.machine), "the command that replied `fault` changed an account")


def same_bytes(programs: Programs, data: bytes) -> None:
    """On any bytes lispm_inside has lispm's status and writes what lispm writes; at status 0 the machine is judged too."""
    plain, ended = run(programs.lispm, ["replay"], data), run(programs.inside, [], data)
    need(plain.status == ended.status, f"status {ended.status}, and lispm's is {plain.status}")
    if plain.status:
        need(plain.output == ended.output, "what is written isn't lispm's")
        return
    at = len(plain.output)
    need(ended.output[:at] == plain.output, "the replies aren't lispm's")
    need(ended.output[at:].startswith(HEAD.encode() + b"\n"), "no machine after the replies")
    judge(shown_by(ended.output).machine, False, True)


def read_input(data: bytes) -> Input:
    """An input that is accepted, as its parts."""
    lines = data.decode().split("\n")
    at = lines.index("trace") + 1
    names = [line.split()[1] for line in lines[:at] if line.startswith("area ")]
    return Input(lines[:at], names, lines[at:lines.index("end")])
