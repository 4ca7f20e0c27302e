#!/usr/bin/env python3
"""Measures `jvmx explore`, and prints its figures beside those of `jvmx campaign` as rows of a table for docs/PERFORMANCE.md.

    bench/exploring.py [--jvmx PROGRAM] [--seeds N] [--jobs N] [--times N] [--only PART] [NAME...]

- `programs`: for each of seven programs of examples/, with at most 2 departures and one worker: the runs of `explore`, how
  many there are until the first that fails, and the seconds, the least of some; the turns and departures of the run that is
  shown. For `campaign`, and for `campaign --pct 3` if there is one: how many runs there are until the first that fails, as
  the median and the worst over some seeds, and the medians of the turns and departures of these runs.
- `speed`: runs a second, of about 50 turns and with a specification, on one worker and on four, each the best of some
- `memory`: the most memory that an exploration with 1,000,000 runs of 2 departures takes

The last two explore a program that this script writes. NAMEs are some of the seven programs. Runs a second of the processors'
time are printed beside those of wall time: they tell more where other work goes on.
"""
import argparse
import os
import re
import statistics
import subprocess
import sys
import tempfile
import time
from dataclasses import dataclass
from pathlib import Path

sys.dont_write_bytecode = True
HERE = Path(__file__).resolve().parent
sys.path.insert(0, str(HERE))
from departures import Program, Unknown, departures_of, turns_of  # noqa: E402

EXAMPLES = HERE.parent / "examples"
THREADS = EXAMPLES / "threads"
JAVA = EXAMPLES / "java"
MOST_TURNS = 1_000
DEPARTURES = 2
MANY = 1_000_000
WORKERS = 4
# The written program of the speed: its number of threads beside main, how often each of them reads, and the departures. None
# of its 85,501 runs fails.
FAST_THREADS, FAST_READS, FAST_DEPARTURES = 2, 2, 5
# That of the memory, which has more than 1,000,000 jobs with 2 departures.
MANY_THREADS, MANY_READS = 19, 1
SOURCE = """.class public Many
.super java/lang/Thread
.field static field I
.method public <init>()V
aload_0
invokenonvirtual java/lang/Thread/<init>()V
return
.end method
.method static synchronized inc()V
.limit stack 2
getstatic Many/field I
iconst_1
iadd
putstatic Many/field I
return
.end method
.method public run()V
{reads}invokestatic Many/inc()V
return
.end method
.method public static main([Ljava/lang/String;)V
.limit stack 2
{starts}{reads}invokestatic Many/inc()V
return
.end method
"""
READ = "getstatic Many/field I\npop\n"
START = "new Many\ndup\ninvokespecial Many/<init>()V\ninvokevirtual Many/start()V\n"
LEVEL = re.compile(r"departures \d+ runs (\d+) .*")
FAILING = re.compile(r"failing (?P<schedule>\S+) .*")
# The line of `run` in a campaign's summary that runs a job again.
AGAIN = re.compile(r"^job (?P<job>\d+): .*\n +jvmx run .*--sched (?P<schedule>\S+)", re.MULTILINE)
UNKNOWN_WORDS = 2
AIMS = {"seconds": 0.2, "runs a second": 50_000, "times faster": 3.5, "MiB": 256}


@dataclass(frozen=True)
class Timed:
    """What a command printed, its seconds of wall time and of all processors, and the most memory that it held."""

    out: str
    seconds: float
    processors: float
    mebibytes: float


@dataclass(frozen=True)
class Found:
    """The first run that fails: how many runs there are up to it, and its turns and departures."""

    runs: int
    turns: int
    departures: int


def timed(words):
    """Runs a command that ends with 0 or 1."""
    words = list(map(str, words))
    with tempfile.TemporaryFile("w+") as out:
        begin = time.perf_counter()
        child = subprocess.Popen(words, stdin=subprocess.DEVNULL, stdout=out, stderr=subprocess.DEVNULL)
        _, status, used = os.wait4(child.pid, 0)
        seconds = time.perf_counter() - begin
        child.returncode = os.waitstatus_to_exitcode(status)
        if child.returncode not in (0, 1):
            raise Unknown(f"{' '.join(words)} ended with {child.returncode}")
        out.seek(0)
        return Timed(out.read(), seconds, used.ru_utime + used.ru_stime, used.ru_maxrss / 1024)


def explored(words, program, departures, runs, workers):
    """Runs `explore`."""
    options = ["--spec", program.spec, "--departures", departures, "--runs", runs, "--workers", workers]
    return timed([words.jvmx, "explore", *options, *program.words()])


def runs_in(out):
    """Returns the number of runs of all levels."""
    return sum(int(found[1]) for found in map(LEVEL.fullmatch, out.splitlines()) if found)


def failing_in(out):
    """Returns the schedule of the run that fails, if there is one."""
    found = FAILING.fullmatch(out.splitlines()[-1])
    return found and found["schedule"]


def runs_until_failing(words, program, runs):
    """Returns the least number of runs with which `explore` shows a run that fails, which it does with this number."""
    low, high = 0, runs
    while high - low > 1:
        middle = (low + high) // 2
        if failing_in(explored(words, program, DEPARTURES, middle, 1).out):
            high = middle
        else:
            low = middle
    return high


def found_by(words, program, schedule, runs):
    """Returns the run of a schedule, with its turns and departures."""
    turns = turns_of(words.jvmx, program, schedule)
    return Found(runs, len(turns), len(departures_of(turns)))


def found_by_campaign(words, program, seed, options):
    """Returns the first job of a campaign that fails, if there is one. A job whose words are refused raises `Unknown`."""
    line = [words.jvmx, "campaign", "--seed", seed, "--jobs", words.jobs, "--summary", *options]
    line = list(map(str, [*line, "--spec", program.spec, *program.words()]))
    ran = subprocess.run(line, capture_output=True, text=True)
    if ran.returncode not in (0, 1):
        raise Unknown(f"{' '.join(line)} ended with {ran.returncode}: {ran.stderr}")
    failing = min(((int(found["job"]), found["schedule"]) for found in AGAIN.finditer(ran.stderr)), default=None)
    return failing and found_by(words, program, failing[1], failing[0] + 1)


def cells_of_campaigns(words, program, options):
    """Returns four cells: the median and the worst number of runs until one fails, and the medians of turns and departures."""
    try:
        every = [found_by_campaign(words, program, seed, options) for seed in range(words.seeds)]
    except Unknown:
        if options:
            # This way of campaigns isn't there.
            return [""] * 4
        raise
    found = [one for one in every if one]
    if not found:
        return [f"none of {words.jobs}", "", "", ""]
    runs = [one.runs if one else words.jobs + 1 for one in every]
    worst = str(max(runs)) if len(found) == len(every) else f"> {words.jobs}"
    medians = [statistics.median([getattr(one, name) for one in found]) for name in ("turns", "departures")]
    return [f"{statistics.median(runs):g}", worst, *(f"{median:g}" for median in medians)]


def cells_of_explore(words, program):
    """Returns five cells: the runs, those until one fails, the seconds, and the turns and departures of the run shown."""
    timings = [explored(words, program, DEPARTURES, MANY, 1) for _ in range(words.times)]
    out, seconds = timings[0].out, min(timing.seconds for timing in timings)
    runs, schedule = runs_in(out), failing_in(out)
    if not schedule:
        return [str(runs), "covered", f"{seconds:.3f}", "", ""]
    found = found_by(words, program, schedule, runs_until_failing(words, program, runs))
    return [str(runs), str(found.runs), f"{seconds:.3f}", str(found.turns), str(found.departures)]


def print_row(*cells):
    """Prints a row of a table."""
    print("|", " | ".join(cells), "|", flush=True)


def print_programs(words, programs):
    """Prints a row for each program."""
    ways = [("`campaign`", []), ("`campaign --pct 3`", ["--pct", "3"])]
    print_row(
        "Program", f"`explore`, {DEPARTURES} departures: runs", "until one fails", f"seconds (aim {AIMS['seconds']})", "turns",
        "departures", *(cell for way, _ in ways for cell in (f"{way}: until one fails, median", "worst", "turns", "departures")),
    )
    print("|---" * (6 + 4 * len(ways)) + "|")
    for name, program in programs.items():
        campaigns = [cell for _, options in ways for cell in cells_of_campaigns(words, program, options)]
        print_row(name, *cells_of_explore(words, program), *campaigns)


def many(folder, count, reads):
    """Writes the program in which main and a number of threads read a field, and count it in a synchronized method."""
    source, spec = folder / "Many.j", folder / "spec"
    source.write_text(SOURCE.format(reads=READ * reads, starts=START * count))
    spec.write_text("atomic Many.inc\n")
    return Program("Many", (source,), spec, MOST_TURNS)


def print_speed(words, folder):
    """Prints how many runs a second one worker makes, and how many times as many four make."""
    program = many(folder, FAST_THREADS, FAST_READS)
    every = {1: [], WORKERS: []}
    for _ in range(words.times):
        for workers, timings in every.items():
            timings.append(explored(words, program, FAST_DEPARTURES, MANY, workers))
    runs = runs_in(every[1][0].out)
    wall = {workers: runs / min(timing.seconds for timing in timings) for workers, timings in every.items()}
    processors = {workers: runs / min(timing.processors for timing in timings) for workers, timings in every.items()}
    turns = len(turns_of(words.jvmx, program, "stay:"))
    said = f"{wall[1]:,.0f}, of processor time {processors[1]:,.0f}"
    print_row(f"runs a second, {runs:,} of some {turns} turns, one worker", said, f"{AIMS['runs a second']:,}")
    said = f"{wall[WORKERS] / wall[1]:.2f}, a second of processor time {processors[WORKERS] / processors[1]:.2f}"
    print_row(f"{WORKERS} workers, times as many", said, str(AIMS["times faster"]))


def print_memory(words, folder):
    """Prints the most memory of an exploration with many runs."""
    program = many(folder, MANY_THREADS, MANY_READS)
    took = explored(words, program, DEPARTURES, MANY, WORKERS)
    print_row(f"MiB, {took.out.splitlines()[-2]}", f"{took.mebibytes:.0f}", str(AIMS["MiB"]))


def threads(name, spec):
    """Returns a program of examples/threads, written in Jasmin."""
    return Program(name, (THREADS / f"{name}.j",), spec, MOST_TURNS)


def all_programs():
    """Returns the seven programs by their names."""
    specs = {"LostUpdate": THREADS / "atomic.spec", "Philosophers": THREADS / "classes" / "Philosophers.spec"}
    names = ["LostUpdate", "Bank", "Lazy", "DoubleChecked", "Mailbox", "Philosophers"]
    programs = {name: threads(name, specs.get(name, THREADS / f"{name}.spec")) for name in names}
    files = tuple(sorted((JAVA / "49").glob("LostNotification*.class")))
    return programs | {"LostNotification": Program("LostNotification", files, JAVA / "LostNotification.spec", MOST_TURNS)}


def main():
    parser = argparse.ArgumentParser(description=__doc__.split("\n")[0])
    parser.add_argument("--jvmx", default=HERE.parent / "jvmx", help="the program; else the one of this folder")
    parser.add_argument("--seeds", type=int, default=20, help="how many seeds a campaign is tried with")
    parser.add_argument("--jobs", type=int, default=1000, help="the most runs of a campaign")
    parser.add_argument("--times", type=int, default=3, help="how often each exploration is timed")
    parser.add_argument("--only", choices=["programs", "speed", "memory"], help="this part alone")
    parser.add_argument("names", nargs="*", metavar="NAME", help="these programs; else all seven")
    words = parser.parse_args()
    programs = {name: program for name, program in all_programs().items() if name in (words.names or [name])}
    if words.only in (None, "programs"):
        print_programs(words, programs)
    if words.only is None:
        print()
    if words.only != "programs":
        print_row("Measured", "", "Aim")
        print("|---" * 3 + "|")
    with tempfile.TemporaryDirectory() as folder:
        if words.only in (None, "speed"):
            print_speed(words, Path(folder))
        if words.only in (None, "memory"):
            print_memory(words, Path(folder))


if __name__ == "__main__":
    main()
