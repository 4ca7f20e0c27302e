#!/usr/bin/env python3
"""Compares `jvmx explore` with all schedules of small programs, which this script finds by itself.

    bench/brute_force.py [--jvmx PROGRAM] [--departures N] [--all] [--jobs PROGRAM] [--events] [NAME...]
    bench/brute_force.py [--jvmx PROGRAM] [--departures N] [--all] [--jobs PROGRAM] [--events] --random N [--seed S]

The programs are those of bench/small_programs, and LostUpdate of examples/threads. NAMEs are some of them. With --random they
are N programs as bench/campaigns.py writes them, of the seeds from S on (default: 1). The script knows nothing of turns that
are local: it adds a departure at each position after the last one, to each enabled thread but the run's own choice, as sessions
of `jvmx debug` show them. So it has all schedules with at most a number of departures (default: 2, 3 for programs of few turns,
1 for random ones). For each number up to this one it compares:

- which of cycle, uncaught, deadlocked, stalled and running any run has, with the counts of `explore`
- the least number of departures of a run that fails, with the level at which `explore` shows one
- with --all, the jobs that the program explored_jobs lists, with `explore`'s count of runs and with the schedules; and what the
  runs that end print, how they end, after how many turns, and how they are judged, with what the runs of the jobs do. With
  --events also the events of their traces, in order

Each line of the table is a program and a number of departures: the schedules, the jobs, how many of the schedules' ends differ,
and how they fail. Without --all the jobs are those that `explore` runs, which ends with the first level that fails. A difference
ends the script with an error, which shows a schedule. For --all build explored_jobs by `./launcher.py --quick explored_jobs
FILE`, and name FILE by --jobs.
"""
import argparse
import random
import re
import subprocess
import sys
import tempfile
from concurrent.futures import ThreadPoolExecutor
from dataclasses import dataclass
from pathlib import Path

sys.dont_write_bytecode = True
HERE = Path(__file__).resolve().parent
sys.path.insert(0, str(HERE))
from campaigns import Writer  # noqa: E402
from departures import Program, Unknown, default_of, schedule_of, turns_of  # noqa: E402

SMALL = HERE / "small_programs"
THREADS = HERE.parent / "examples" / "threads"
# The programs, each with the most turns of a run. The files of a program begin with its name.
MOST = {name: 200 for name in (
    "Count", "Guarded", "Account", "LockOrder", "Notification", "Waiting", "Divided", "Prints", "Initialised", "Outside",
    "ThreeLocks", "LostUpdate",
)} | {"Spinning": 60}
# The programs that are explored with one departure more.
SMALLEST = ("Outside", "Spinning", "Waiting", "Divided", "Count")
# The most turns of a run of a random program.
MOST_OF_RANDOM = 1_000
PROCESSES = 2
KINDS = ("cycle", "uncaught", "deadlocked", "stalled", "running")
# What `run` writes to standard error.
ENDING = re.compile(
    r"(?P<uncaught>(uncaught \d+ \S+\n)*)status (?P<status>\w+) turns (?P<turns>\d+)\n"
    r"(?P<verdict>(atomic|cycle at \d+) events \d+ transactions \d+)(: \d+( \d+)*)?\n"
)
LEVEL = re.compile(rf"departures \d+ runs (?P<runs>\d+) {' '.join(f'{kind} (?P<{kind}>{chr(92)}d+)' for kind in KINDS)}")
FAILING = re.compile(r"failing stay:(?P<departures>\S*) .*")
MARKS = ("enter ", "exit ")


class Difference(Exception):
    """What differs, with a schedule that shows it."""


@dataclass(frozen=True)
class End:
    """What is known of a run: what it printed, how it ended and was judged, and its events if they are asked for."""

    output: str
    status: str
    turns: str
    uncaught: str
    verdict: str
    events: str

    def kinds(self):
        """Returns the ways in which the run fails."""
        found = {"Finished": [], "Deadlocked": ["deadlocked"], "Stalled": ["stalled"], "Running": ["running"]}[self.status]
        return {*found, *(["uncaught"] if self.uncaught else []), *(["cycle"] if self.verdict.startswith("cycle") else [])}


@dataclass(frozen=True)
class Explored:
    """What `explore` printed: the counts of each level, and the departures of the run that is shown, if there is one."""

    levels: list[dict[str, int]]
    failing: tuple | None


def output_of(words, statuses=(0,)):
    """Runs a command that ends with one of these statuses, and returns what it wrote."""
    ran = subprocess.run(list(map(str, words)), capture_output=True, text=True)
    if ran.returncode not in statuses:
        raise Unknown(f"{' '.join(map(str, words))} ended with {ran.returncode}: {ran.stderr}")
    return ran.stdout, ran.stderr


def departures_in(text):
    """Returns the departures that a schedule's word spells after its `stay:`."""
    return tuple(tuple(map(int, part.split("="))) for part in text.split(",") if part)


class Runs:
    """The runs of a program by their departures, made by a number of processes."""

    def __init__(self, jvmx, program, with_events, pool):
        self.jvmx, self.program, self.with_events, self.pool = jvmx, program, with_events, pool
        # How the run with these departures ends.
        self.ends = {}

    def events(self, schedule):
        """Returns the events of a run, without the marks of calls and returns."""
        trace, _ = output_of([self.jvmx, "trace", "--sched", schedule, *self.program.words()], (0, 1))
        return "\n".join(line for line in trace.splitlines() if not line.startswith(MARKS))

    def end(self, departures):
        """Runs a schedule, and returns how it ends."""
        schedule = schedule_of(departures)
        words = [self.jvmx, "run", "--sched", schedule, "--spec", self.program.spec, *self.program.words()]
        out, said = output_of(words, (0, 1))
        found = ENDING.fullmatch(said)
        if not found:
            raise Unknown(f"{words} writes {said!r}")
        events = self.events(schedule) if self.with_events else ""
        return End(out, found["status"], found["turns"], found["uncaught"], found["verdict"], events)

    def children(self, departures):
        """Returns the schedules with one departure more, at a position after the last one."""
        last, found = 0, []
        first = departures[-1][0] + 1 if departures else 0
        named = dict(departures)
        for position, turn in enumerate(turns_of(self.jvmx, self.program, schedule_of(departures))):
            if turn.choice != named.get(position, default_of(turn.enabled, last)):
                raise Difference(f"{schedule_of(departures)} takes thread {turn.choice} at {position}")
            others = [thread for thread in turn.enabled if thread != turn.choice and position >= first]
            found += [(*departures, (position, thread)) for thread in others]
            last = turn.choice
        return found

    def run_level(self, level):
        """Runs the schedules of a level."""
        self.ends.update(zip(level, self.pool.map(self.end, level)))

    def run_all(self, most):
        """Runs all schedules with at most this number of departures, and returns them, level by level."""
        levels = [[()]]
        self.run_level(levels[0])
        for _ in range(most):
            levels.append([child for children in self.pool.map(self.children, levels[-1]) for child in children])
            self.run_level(levels[-1])
        return levels


def explore(jvmx, program, most):
    """Runs `explore` up to a number of departures, and returns what it printed."""
    options = ["--spec", program.spec, "--departures", most, "--runs", 1_000_000, "--workers", PROCESSES]
    out, _ = output_of([jvmx, "explore", *options, *program.words()], (0, 1))
    *lines, last = out.splitlines()
    levels = [LEVEL.fullmatch(line) for line in lines]
    failing = FAILING.fullmatch(last)
    if None in levels or not (failing or last == f"covered {most}"):
        raise Unknown(f"explore of {program.entry} prints {out}")
    counts = [{name: int(count) for name, count in level.groupdict().items()} for level in levels]
    return Explored(counts, departures_in(failing["departures"]) if failing else None)


def jobs_of(jobs, program, most):
    """Returns the jobs that explored_jobs lists up to a number of departures, level by level."""
    out, _ = output_of([jobs, most, program.most, program.entry, *program.files])
    levels = [[] for _ in range(most + 1)]
    for line in out.splitlines():
        departures = departures_in(line.removeprefix("stay:"))
        levels[len(departures)].append(departures)
    return levels


def kinds_of(ends):
    """Returns the ways in which any of these runs fails."""
    return set().union(*(end.kinds() for end in ends))


def check_counts(ends_by_level, explored):
    """Compares the ways in which runs fail with the counts of each level, and the first level with such a run."""
    for most in range(len(explored.levels)):
        wanted = kinds_of(end for ends in ends_by_level[: most + 1] for end in ends)
        counted = {kind for kind in KINDS for level in explored.levels[: most + 1] if level[kind]}
        if wanted != counted:
            raise Difference(f"up to {most} departures: runs are {sorted(wanted)}, and explore counts {sorted(counted)}")
    first = next((level for level, ends in enumerate(ends_by_level) if kinds_of(ends)), None)
    shown = None if explored.failing is None else len(explored.failing)
    if first != shown:
        raise Difference(f"the first run that fails has {first} departures, and explore shows one with {shown}")


def check_shown(runs, explored):
    """Looks for the run that `explore` shows among those that fail."""
    shown = explored.failing
    if shown is not None and (shown not in runs.ends or not runs.ends[shown].kinds()):
        raise Difference(f"{schedule_of(shown)} is shown, and isn't the schedule of a run that fails")


def check_jobs(runs, jobs, explored):
    """Compares the number of jobs of each level with that of `explore`, and looks for each job among the schedules."""
    for level, counts in zip(jobs, explored.levels):
        if len(level) != counts["runs"] or len(level) != len(set(level)):
            raise Difference(f"{len(level)} jobs, {len(set(level))} of them different, and explore runs {counts['runs']}")
    for job in (job for level in jobs for job in level):
        if job not in runs.ends:
            raise Difference(f"the job {schedule_of(job)} is no schedule that departs from the default so")


def check_ends(runs, levels, jobs):
    """Looks for the end of each schedule that ends among those of the jobs with as few departures."""
    reached = set()
    for schedules, level in zip(levels, jobs):
        reached.update(runs.ends[job] for job in level)
        for departures in schedules:
            end = runs.ends[departures]
            # What is covered are the runs that end.
            if end.status != "Running" and end not in reached:
                raise Difference(f"{schedule_of(departures)} ends as no job with as few departures: {end}")


def print_lines(name, ends_by_level, counts):
    """Prints a line for each number of departures. The numbers of jobs may be known of the first levels alone."""
    schedules, ran, ends = 0, 0, set()
    for number, level in enumerate(ends_by_level):
        schedules += len(level)
        ends.update(level)
        ran += counts[number] if number < len(counts) else 0
        shown = ran if number < len(counts) else ""
        print(f"{name:14s} {number:10d} {schedules:9d} {shown:6} {len(ends):4d}  {' '.join(sorted(kinds_of(ends)))}", flush=True)


def compare(words, name, program, most, pool):
    """Compares a program's runs, and prints a line for each number of departures."""
    runs = Runs(words.jvmx, program, words.events, pool)
    levels = runs.run_all(most)
    ends_by_level = [[runs.ends[departures] for departures in level] for level in levels]
    explored = explore(words.jvmx, program, most)
    check_shown(runs, explored)
    check_counts(ends_by_level, explored)
    counts = [level["runs"] for level in explored.levels]
    if words.all:
        jobs = jobs_of(words.jobs, program, most)
        check_jobs(runs, jobs, explored)
        check_ends(runs, levels, jobs)
        counts = [len(level) for level in jobs]
    print_lines(name, ends_by_level, counts)


def program_of(name):
    """Returns the program of this name."""
    if name == "LostUpdate":
        return Program(name, (THREADS / f"{name}.j",), THREADS / "atomic.spec", MOST[name])
    return Program(name, tuple(sorted(SMALL.glob(f"{name}*.j"))), SMALL / f"{name}.spec", MOST[name])


def random_program(folder, seed):
    """Writes a random program, and returns it."""
    writer = Writer(random.Random(seed), False)
    files = {"P.j": writer.thread_class(), "Q.j": writer.other_class(), "spec": writer.specification()}
    for name, text in files.items():
        (folder / name).write_text(text)
    return Program("P", (folder / "P.j", folder / "Q.j"), folder / "spec", MOST_OF_RANDOM)


def programs_of(words, folder):
    """Yields each program with its name, and the most departures."""
    if words.random:
        for seed in range(words.seed, words.seed + words.random):
            yield f"seed {seed}", random_program(folder, seed), 1
    else:
        for name in words.names or MOST:
            yield name, program_of(name), 3 if name in SMALLEST else 2


def main():
    parser = argparse.ArgumentParser(description=__doc__.split("\n")[0])
    parser.add_argument("--jvmx", default=HERE.parent / "jvmx", help="the program; else the one of this folder")
    parser.add_argument("--departures", type=int, help="the most departures")
    parser.add_argument("--all", action="store_true", help="compares the ends of all runs with those of all jobs")
    parser.add_argument("--jobs", default=HERE.parent / "crates/explored_jobs/out/explored_jobs", help="explored_jobs")
    parser.add_argument("--events", action="store_true", help="with --all, compares the events of runs too")
    parser.add_argument("--random", type=int, default=0, metavar="N", help="compares N random programs")
    parser.add_argument("--seed", type=int, default=1, help="the seed of the first random program")
    parser.add_argument("names", nargs="*", metavar="NAME", help="these programs; else all")
    words = parser.parse_args()
    print("program        departures schedules   jobs ends  fails by")
    with ThreadPoolExecutor(PROCESSES) as pool, tempfile.TemporaryDirectory() as folder:
        for name, program, most in programs_of(words, Path(folder)):
            try:
                compare(words, name, program, most if words.departures is None else words.departures, pool)
            except (Difference, Unknown) as fault:
                sys.exit(f"{name}: {fault}")


if __name__ == "__main__":
    main()
