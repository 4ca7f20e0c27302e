"""The turns of a run, as a session of `jvmx debug` shows them, and the run's departures from the default."""
import re
import subprocess
from dataclasses import dataclass
from pathlib import Path

# What `threads` says of a thread that can take a turn. One that ends by it is at some place; one that has ended isn't.
ENABLED = re.compile(r"thread (?P<thread>\d+) (Ran.*|Raised.*|Ended at .*)")
POSITION = re.compile(r"at (?P<position>\d+) of (?P<turns>\d+) \w+(?:, thread (?P<choice>\d+) \w+.*)?")
DISABLED = re.compile(r"thread \d+ (Ended( pending \d+)?|Blocked .*|Bad .*)")


class Unknown(Exception):
    """A program answered what isn't expected here. Has the command and the answer."""


@dataclass(frozen=True)
class Program:
    """A program: the class with its main, its files, its specification, and the most turns of a run."""

    entry: str
    files: tuple[Path, ...]
    spec: Path
    most: int = 10_000

    def words(self):
        """Returns the words that each command takes, but for the specification."""
        return ["--entry", self.entry, "--max", str(self.most), *map(str, self.files)]


@dataclass(frozen=True)
class Turn:
    """A turn: the thread that took it, and the threads that were enabled before it."""

    choice: int
    enabled: tuple[int, ...]


def schedule_of(departures):
    """Returns the word of the schedule with these departures, pairs of a position and a thread."""
    return "stay:" + ",".join(f"{position}={thread}" for position, thread in departures)


def default_of(enabled, last):
    """Returns the thread that ran last if it is enabled, else the next enabled one by rising number and round."""
    return min(enabled, key=lambda thread: (thread < last, thread))


def session(jvmx, program, schedule, turns):
    """Returns the answers of a session that shows the threads at each position, up to a number of turns."""
    words = [jvmx, "debug", "--sched", schedule, *program.words()]
    script = "goto 0\nthreads\n" + "step 1\nthreads\n" * turns
    ran = subprocess.run(words, input=script, capture_output=True, text=True)
    if ran.returncode or ran.stderr:
        raise Unknown(f"{words}: {ran}")
    return ran.stdout.splitlines()


def turns_of(jvmx, program, schedule):
    """Returns the turns of a run, in order."""
    turns, enabled, at = [], [], -1
    for line in session(jvmx, program, schedule, program.most):
        if position := POSITION.fullmatch(line):
            if int(position["position"]) == at:
                # The last position, shown again.
                break
            at = int(position["position"])
            if at:
                turns.append(Turn(int(position["choice"]), tuple(enabled)))
            enabled = []
        elif thread := ENABLED.fullmatch(line):
            enabled.append(int(thread["thread"]))
        elif not DISABLED.fullmatch(line):
            raise Unknown(f"{program.entry} under {schedule}: {line}")
    return turns


def departures_of(turns):
    """Returns the departures of a run: pairs of a position and a thread."""
    last, found = 0, []
    for position, turn in enumerate(turns):
        if turn.choice != default_of(turn.enabled, last):
            found.append((position, turn.choice))
        last = turn.choice
    return tuple(found)
