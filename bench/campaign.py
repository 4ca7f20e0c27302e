#!/usr/bin/env python3
"""Measures `jvmx campaign` on Bank, Buffer, Philosophers and Lazy of examples/threads, and on bench/java's Locks with fewer
rounds, so that a job has about 5,000 turns. Prints for each program and number of jobs, with 1, 2, 3 and 4 workers:

- seconds of wall time and of all processors, each the least of some runs; jobs and turns a second of wall time
- how many times faster than one worker by wall time, and seconds of all processors as a multiple of its

Then, if `perf` is there, the share of its time that a campaign with one worker spends in the system's allocator. Last, how
long 1,000,000 jobs of about 500 turns would take: 20,000 jobs of Locks are timed, with 15 rounds.

    bench/campaign.py [--jvmx PROGRAM] [--jobs N,N] [--times N] [NAME...]

The table has to be the same for any number of workers. ecj compiles Locks, to a class file of version 49.
"""
import argparse
import os
import re
import shutil
import subprocess
import sys
import tempfile
import time
from pathlib import Path
from typing import NamedTuple

sys.dont_write_bytecode = True
sys.path.insert(0, str(Path(__file__).resolve().parent))
import java_examples  # noqa: E402

HERE = Path(__file__).resolve().parent
THREADS = HERE.parent / "examples" / "threads"
SOURCES = ["Bank", "Buffer", "Philosophers", "Lazy"]
WORKERS = [1, 2, 3, 4]
# The rounds of Locks for jobs of 5,006 turns, and for the many jobs of 506 turns.
ROUNDS, FEW_ROUNDS = 165, 15
MANY, SAMPLE = 1_000_000, 20_000
# The specifications of programs that have none beside them; else no method is to be atomic.
SPECS = {"Philosophers": "atomic Philosophers.run\n"}
# The symbols of the allocator in glibc.
ALLOCATOR = re.compile(
    r"(__libc_|_int_|c|sys)?(malloc|free|realloc|calloc)|unlink_chunk|tcache|arena_get|(new|grow|shrink)_heap|heap_trim"
    r"|systrim|__default_morecore|s?brk"
)


class Program(NamedTuple):
    """A program: the name of its main class, its file and its specification."""

    name: str
    file: Path
    spec: Path


class Times(NamedTuple):
    """Seconds of wall time and of all processors."""

    wall: float
    processors: float

    def least(self, other):
        return Times(min(self.wall, other.wall), min(self.processors, other.processors))


def source(name, folder):
    """Returns a program of examples/threads. Writes its specification to a folder if there is none beside it."""
    spec = THREADS / f"{name}.spec"
    if not spec.exists():
        spec = folder / f"{name}.spec"
        spec.write_text(SPECS.get(name, "plain *\n"))
    return Program(name, THREADS / f"{name}.j", spec)


def locks(rounds, folder):
    """Compiles Locks with a number of rounds."""
    out = folder / str(rounds)
    out.mkdir()
    (out / "Locks.java").write_text((HERE / "java" / "Locks.java").read_text().replace("= 200000;", f"= {rounds};"))
    boot = folder / "boot" if (folder / "boot").exists() else java_examples.stubs(folder)
    java_examples.ecj([out / "Locks.java"], out, 49, boot)
    (out / "spec").write_text("plain *\n")
    return Program("Locks", out / "Locks.class", out / "spec")


def command(words, program, jobs, workers):
    """Returns the words of a campaign."""
    options = [f"--spec={program.spec}", f"--jobs={jobs}", f"--workers={workers}"]
    return [words.jvmx, "campaign", *options, "--entry", program.name, program.file]


def timed(line):
    """Runs a campaign. Returns its times and its table."""
    with tempfile.TemporaryFile() as out:
        begin = time.perf_counter()
        child = subprocess.Popen(line, stdin=subprocess.DEVNULL, stdout=out, stderr=subprocess.DEVNULL)
        _, status, used = os.wait4(child.pid, 0)
        wall = time.perf_counter() - begin
        child.returncode = os.waitstatus_to_exitcode(status)
        if child.returncode not in (0, 1):
            sys.exit(f"{' '.join(map(str, line))} ended with {child.returncode}")
        out.seek(0)
        return Times(wall, used.ru_utime + used.ru_stime), out.read()


def measured(words, program, jobs, numbers):
    """Returns the least times by number of workers, and the turns of all jobs."""
    least, tables = {}, set()
    for _ in range(words.times):
        for workers in numbers:
            took, table = timed(command(words, program, jobs, workers))
            least[workers] = least.get(workers, took).least(took)
            tables.add(table)
    if len(tables) > 1:
        sys.exit(f"{program.name}, {jobs} jobs: the table isn't the same each time")
    return least, sum(map(int, re.findall(rb"(?m)^job .* turns (\d+)", tables.pop())))


def print_times(words, program, jobs):
    """Prints a line for each number of workers."""
    least, turns = measured(words, program, jobs, WORKERS)
    for workers, took in least.items():
        rates = f"{jobs / took.wall:8.0f} {turns / took.wall:11.0f}"
        ratios = f"{least[1].wall / took.wall:6.2f} {took.processors / least[1].processors:11.2f}"
        figures = f"{workers:7d} {took.wall:7.3f} {took.processors:11.3f} {rates} {ratios}"
        print(f"{program.name:12s} {jobs:6d} {turns / jobs:9.0f} {figures}", flush=True)


def print_allocator(words, program, jobs, folder):
    """Prints the share of samples in malloc, free, realloc and their inner functions."""
    record, quiet = folder / "perf.data", {"stdout": subprocess.DEVNULL, "stderr": subprocess.DEVNULL}
    line = ["perf", "record", "-q", "-F", "1999", "-o", record, "--", *command(words, program, jobs, 1)]
    if subprocess.run(line, **quiet).returncode not in (0, 1) or not record.exists():
        print("perf: no samples")
        return
    report = ["perf", "report", "-q", "-i", record, "--stdio", "-F", "sample,dso,symbol", "-t", "\t"]
    rows = [row.split("\t") for row in subprocess.run(report, capture_output=True, text=True).stdout.splitlines()]
    rows = [(int(row[0]), row[1], row[2].strip()[4:]) for row in rows if len(row) == 3]
    samples = sum(count for count, _, _ in rows)
    inside = sum(count for count, object_, name in rows if "libc" in object_ and ALLOCATOR.match(name))
    print(f"{program.name}, {jobs} jobs: {inside / max(samples, 1):.0%} of {samples} samples", flush=True)


def print_many(words, folder):
    """Prints how long many jobs would take, scaled from fewer."""
    least, turns = measured(words, locks(FEW_ROUNDS, folder), SAMPLE, [1, 4])
    print(f"\n{MANY} jobs of Locks, {FEW_ROUNDS} rounds, {turns / SAMPLE:.0f} turns each, scaled from {SAMPLE} jobs:")
    for workers, took in least.items():
        wall, processors = (seconds * MANY / SAMPLE for seconds in took)
        print(f"workers {workers}: {wall:.0f} seconds of wall time, {processors:.0f} of all processors", flush=True)


def main():
    parser = argparse.ArgumentParser(description=__doc__.split("\n")[0])
    parser.add_argument("--jvmx", default=HERE.parent / "jvmx", help="the program; else the one of this folder")
    parser.add_argument("--jobs", default="1000,10000", help="the numbers of jobs, parted by commas")
    parser.add_argument("--times", default=3, type=int, help="how often each campaign is timed")
    parser.add_argument("names", nargs="*", metavar="NAME", help="these programs; else all")
    words = parser.parse_args()
    numbers = [int(number) for number in words.jobs.split(",")]
    with tempfile.TemporaryDirectory() as name:
        folder = Path(name)
        names = words.names or [*SOURCES, "Locks"]
        programs = [locks(ROUNDS, folder) if name == "Locks" else source(name, folder) for name in names]
        print("program        jobs turns/job workers  wall s processors s  jobs/s     turns/s faster  processors")
        for program in programs:
            for jobs in numbers:
                print_times(words, program, jobs)
        if shutil.which("perf"):
            print("\nthe system's allocator, one worker")
            for program in programs:
                print_allocator(words, program, max(numbers), folder)
        if "Locks" in names:
            print_many(words, folder)


if __name__ == "__main__":
    main()
