"""Starts a program of this repository: bin/lispm, bin/lispm_inside and bin/lispm_bands call `main`.

The arguments are checked first. Help, the version, and the cause if arguments are refused, are printed at once, without a
proof. Then the built program replaces this process. If it isn't built, or a source is newer, a line reports this, and the
program is proved and built first; with LISPM_STALE=run an outdated program runs unchanged. With --trial the sources are
compiled and run unproved (see trial.py).
"""
import os
import signal
import sys
from typing import TYPE_CHECKING, List

from . import crates, words

if TYPE_CHECKING:
    import subprocess

# The kits with which .ci/run has passed.
KITS = ("rattle-kit-13b", "rattle-kit-13f")
KIT = " or ".join(KITS)
# The statuses of this script: arguments refused, no program, a trial without an answer, stopped by ctrl-C. A program has 0 to 8.
REFUSED, NO_PROGRAM, NO_ANSWER, STOPPED = 7, 69, 70, 130
# The limit in seconds of each run by `rt try`, and of each case of `trial.run_cases`.
TRIAL_SECONDS = os.environ.get("RT_SECONDS") or "60"


def written(to: int, text: str) -> bool:
    """Writes a text on standard output (1) or standard error (2); False if that fails."""
    return written_bytes(to, text.encode(errors="surrogateescape"))


def written_bytes(to: int, left: bytes) -> bool:
    """Writes bytes there; False if that fails."""
    try:
        while left:
            left = left[os.write(to, left):]
    except OSError:
        return False
    return True


def say(name: str, text: str) -> None:
    """A line on standard error."""
    written(2, f"{name}: {text}\n")


def is_checkout() -> bool:
    """The sources are here; if they aren't, this was copied by bin/install."""
    return os.path.isdir(os.path.join(crates.TOP, "crates"))


def path_of(name: str) -> str:
    """The path of the program: in the repository, or below the folder in which it was installed."""
    return crates.program_path(name) if is_checkout() else os.path.join(crates.TOP, "programs", name)


def text_of(*path: str) -> str:
    """The text of a file beside bin/."""
    with open(os.path.join(crates.TOP, *path)) as file:
        return file.read()


def told_by(command: List[str]) -> str:
    """The line that a command writes; an empty string if there is no such command, or it fails."""
    import subprocess

    try:
        ended = subprocess.run(command, cwd=crates.TOP, stdout=subprocess.PIPE, stderr=subprocess.DEVNULL, text=True)
    except OSError:
        return ""
    return ended.stdout.strip() if ended.returncode == 0 else ""


def commit() -> str:
    """The commit in brackets, if this is a checkout."""
    found = os.path.exists(os.path.join(crates.TOP, ".git")) and told_by(["git", "describe", "--always", "--dirty"])
    return f" ({found})" if found else ""


def state_of(name: str) -> str:
    """Whether the program that would run is the proved one."""
    if not os.access(path_of(name), os.X_OK):
        return "not built yet"
    older = crates.stale_by(name)
    return f"proved and built, but older than {older}" if older else "proved and built"


def identity(name: str) -> str:
    """The version, the commit, whether the program is proved, and the kit, in two lines."""
    if not is_checkout():
        return text_of("identity", name)
    kit = told_by(["rt", "version"]) or f"without the command rt ({KIT})"
    return f"{name} {text_of('VERSION').strip()}{commit()}, {state_of(name)}\n{kit}\n"


def answer(text: str) -> int:
    """Writes a text on standard output, and returns the status: 0, or 1 if that fails."""
    return 0 if written(1, text) else 1


def refuse(name: str, given: List[str], cause: str) -> int:
    """Refuses arguments: writes the program's own error line on standard output, and the cause on standard error, followed by
    the usage if there were no arguments. Returns the status."""
    usage = "" if given else "\n\n" + text_of("bin", f"{name}.usage").rstrip()
    say(name, f"{cause}; see {name} --help" if given else cause + usage)
    return answer("error: usage\n") or REFUSED


def read_from(name: str, file: str) -> None:
    """Makes this file the standard input."""
    try:
        opened = os.open(file, os.O_RDONLY)
    except OSError as fault:
        raise words.Refused(f"{file}: {fault.strerror}") from None
    os.dup2(opened, 0)
    os.close(opened)


def has_rt(name: str) -> bool:
    """The kit's command is there; if it isn't, prints that it is needed."""
    import shutil

    if shutil.which("rt"):
        return True
    say(name, f"needs the command rt ({KIT}), see README")
    return False


def warn_of_kit(name: str) -> None:
    """Prints a warning if .ci/run hasn't passed with this kit."""
    kit = told_by(["rt", "version"]).partition(" ")[0]
    if kit and kit not in KITS:
        say(name, f"this is {kit}, and .ci/run has passed with {' and '.join(KITS)}")


def try_unproved(name: str, asked: words.Asked) -> int:
    """Runs the program that the sources compile to, unproved."""
    if not is_checkout():
        say(name, "--trial needs the sources, see README")
        return NO_PROGRAM
    from . import trial

    try:
        return trial.start(name, asked)
    except trial.Failed as fault:
        if str(fault):
            say(name, f"{fault}; status {fault.status}")
        return fault.status


def waited(process: "subprocess.Popen[bytes]") -> int:
    """Waits for a process to end, and returns its status. After ctrl-C, which the process receives as well, and after a signal to
    end, which is forwarded to it, it has time to end what it has started."""
    for number in (signal.SIGTERM, signal.SIGHUP):
        signal.signal(number, lambda number, _: process.send_signal(number))
    while True:
        try:
            return process.wait()
        except KeyboardInterrupt:
            continue


def make_ready(name: str) -> int:
    """Proves and builds the program if it isn't built, or is older than a source; returns 0 if it can run."""
    import subprocess

    is_there = os.access(path_of(name), os.X_OK)
    older = crates.stale_by(name) if is_there and is_checkout() else None
    if is_there and older is None:
        return 0
    if is_there and os.environ.get("LISPM_STALE") == "run":
        say(name, f"the program that runs is older than {older}")
        return 0
    if not is_checkout() or not has_rt(name):
        return NO_PROGRAM
    why = f"the program is older than {older} (LISPM_STALE=run runs it)" if older else "it isn't built yet"
    say(name, f"{why}, so it is proved first; --trial runs the sources unproved, in about a minute")
    warn_of_kit(name)
    status = waited(subprocess.Popen([os.path.join(crates.TOP, "bin", "build"), name], stdin=subprocess.DEVNULL))
    return status if status == 0 or status >= 128 else NO_PROGRAM


def run_proved(name: str, asked: words.Asked) -> int:
    """Runs the built program in place of this one."""
    status = make_ready(name)
    return status or take_over(name, path_of(name), asked.words)


def take_over(name: str, path: str, given: List[str]) -> int:
    """Replaces this process by the program at this path."""
    # Python ignores these two signals; the program must start with their default actions, as from a shell.
    signal.signal(signal.SIGPIPE, signal.SIG_DFL)
    signal.signal(signal.SIGXFSZ, signal.SIG_DFL)
    try:
        os.execv(path, [path, *given])
    except OSError as fault:
        say(name, f"{path}: {fault.strerror}")
        return NO_PROGRAM


def started(name: str, given: List[str]) -> int:
    """Does what the arguments request, and returns the status."""
    left = [word for word in given if word != "--trial"]
    if "--help" in left or "-h" in left or left[:1] == ["help"]:
        return answer(text_of("bin", f"{name}.usage"))
    if "--version" in left or "-V" in left:
        return answer(identity(name))
    try:
        asked = words.read_words(name, left)
        if asked.file is not None:
            read_from(name, asked.file)
    except words.Refused as fault:
        return refuse(name, left, str(fault))
    return (try_unproved if "--trial" in given else run_proved)(name, asked)


def main(name: str) -> None:
    """Starts a program with the arguments of the command line, and ends with its status."""
    try:
        sys.exit(started(name, sys.argv[1:]))
    except KeyboardInterrupt:
        say(name, "stopped")
        sys.exit(STOPPED)
