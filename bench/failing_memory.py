#!/usr/bin/env python3
"""Runs a program again and again, in each run with one allocation refused: the first, the second, and so on until a run
needs no more.

    bench/failing_memory.py [--jvmx PROGRAM] [NAME...]              commands of jvmx
    bench/failing_memory.py --calls [--repeated PROGRAM] [NAME...]  calls that are made once more if they are refused

A command of jvmx must end as with ample memory, or be refused in one line that ends in `Memory`, with status 3, and with
nothing on standard output that the other run doesn't begin with. A refused campaign may also end in
`jvmx: G05 WorkerFailed`, and writes nothing to standard output.

The calls are made by the program `repeated_calls`. Each run must print to standard output what it prints with ample memory,
with status 0. Standard error names the call that was refused, if one was.

The exit status is 1 at the first run that ends otherwise. It is 1 too if no run of a command was refused, or if a call was
refused in none: a program that refuses nothing shows nothing.

A small library in C, built by the kit's clang and loaded in front of the system's, refuses the allocation and counts all
of them. The dynamic loader's own may be refused too. A thread's start allocates by calloc, which isn't refused. A campaign
with one worker starts no thread.
"""
import argparse
import collections
import concurrent.futures
import itertools
import os
import re
import subprocess
import sys
import tempfile
from pathlib import Path
from typing import NamedTuple

sys.dont_write_bytecode = True
ROOT = Path(__file__).resolve().parent.parent
sys.path.insert(0, str(ROOT))
import failing_cases  # noqa: E402
import launcher  # noqa: E402
from jvmx_build import quick  # noqa: E402

REFUSED, COUNTER = "FAILING_ALLOCATION", "FAILING_COUNTER"
REFUSAL = re.compile(r"jvmx: (.*: )?(\w\d\d )?Memory$")
# How a campaign ends where a job, and not the campaign itself, was refused memory.
WORKER_FAILED = "jvmx: G05 WorkerFailed"
# Seconds that one run may take.
LIMIT = 120
BYTES_OF_A_COUNT = 8
# The kit has no headers of C, so what is called is declared here: mmap with PROT_READ, PROT_WRITE and MAP_SHARED.
LIBRARY = f"""
typedef unsigned long size_t;
void *__libc_malloc(size_t);
void *__libc_realloc(void *, size_t);
char *getenv(const char *);
long atol(const char *);
void *mmap(void *, size_t, int, int, int, long);
static long refused, *made;
static int is_refused(void) {{
  if (!made) {{
    refused = atol(getenv("{REFUSED}"));
    made = mmap(0, {BYTES_OF_A_COUNT}, 1 | 2, 1, atol(getenv("{COUNTER}")), 0);
  }}
  return __atomic_add_fetch(made, 1, __ATOMIC_SEQ_CST) == refused;
}}
void *malloc(size_t size) {{ return is_refused() ? 0 : __libc_malloc(size); }}
void *realloc(void *old, size_t size) {{ return is_refused() ? 0 : __libc_realloc(old, size); }}
"""


class Ran(NamedTuple):
    """How a run ended, and how many allocations it asked for."""

    status: int
    out: str
    err: str
    allocations: int

    def is_like(self, other):
        """Returns whether two runs ended and printed the same."""
        return self[:3] == other[:3]


class Command(NamedTuple):
    """A command, with what it reads from standard input and the folder in which it runs."""

    words: list
    script: str
    folder: Path
    library: Path

    def run(self, refused):
        """Runs the command with the allocation of a number refused, or none for 0."""
        # A file in memory, since a program may end without a last call into the library.
        counter = os.memfd_create("allocations")
        variables = {"LD_PRELOAD": str(self.library), REFUSED: str(refused), COUNTER: str(counter)}
        try:
            os.truncate(counter, BYTES_OF_A_COUNT)
            ran = subprocess.run(
                self.words, input=self.script, cwd=self.folder, capture_output=True, text=True,
                env={**os.environ, **variables}, pass_fds=[counter], timeout=LIMIT
            )
            count = os.pread(counter, BYTES_OF_A_COUNT, 0)
        finally:
            os.close(counter)
        return Ran(ran.returncode, ran.stdout, ran.stderr, int.from_bytes(count, sys.byteorder))

    def runs(self, ample, jobs):
        """Yields the runs in which an allocation was refused, each with its number, until a run needs no more."""
        pool = concurrent.futures.ThreadPoolExecutor(jobs)
        results = pool.map(self.run, range(1, ample.allocations + 1))
        try:
            yield from enumerate(results, 1)
        finally:
            # Cancels the runs that haven't begun.
            results.close()
            pool.shutdown()
        # Threads may need more in one run than in another.
        for refused in itertools.count(ample.allocations + 1):
            ran = self.run(refused)
            if ran.allocations < refused:
                return
            yield refused, ran


def is_refusal(words, ran, ample):
    """Returns whether a command of jvmx was refused as it should be."""
    last = ran.err.splitlines()[-1] if ran.err else ""
    if words[1] == "campaign":
        return ran.status == 3 and ran.out == "" and bool(REFUSAL.match(last) or last == WORKER_FAILED)
    return ran.status == 3 and bool(REFUSAL.match(last)) and ample.out.startswith(ran.out)


def unseen(wanted, lasts):
    """Returns the ends of lines that no line has."""
    return [end for end in wanted if not any(last.endswith(end) for last in lasts)]


def try_command(command, jobs, refusals):
    """Runs a command of jvmx, and returns how many runs were refused, and how many ended as with ample memory. Each of these
    refusals has to be among them."""
    ample = command.run(0)
    refused = same = 0
    lasts = set()
    for number, ran in command.runs(ample, jobs):
        if ran.is_like(ample):
            same += 1
        elif is_refusal(command.words, ran, ample):
            refused += 1
            lasts.add(ran.err.splitlines()[-1])
        else:
            sys.exit(f"allocation {number} of {command.words}: {ran}, but with ample memory {ample}")
    if not refused:
        sys.exit(f"{command.words}: 0 runs were refused, and {same} ended as with ample memory")
    if missing := unseen(refusals, lasts):
        sys.exit(f"{command.words}: none of {refused} refused runs ended in {' or '.join(missing)}")
    return f"{refused} refused, {same} ended as with ample memory"


def is_said(line):
    """Returns whether the line of a refused call says what it should."""
    call, _, said = line.partition(": ")
    return said == failing_cases.SAID.get(call, said)


def try_calls(command, jobs, refusable):
    """Runs a command that makes calls, and returns how many allocations were refused, and to which calls. Each of those that
    are refusable has to be among them."""
    ample = command.run(0)
    if ample.status or ample.err:
        sys.exit(f"{command.words} with ample memory: {ample}")
    calls = collections.Counter()
    allocations = 0
    for number, ran in command.runs(ample, jobs):
        lines = ran.err.splitlines()
        if ran.status or ran.out != ample.out or len(lines) > 1 or not all(map(is_said, lines)):
            sys.exit(f"allocation {number} of {command.words}: {ran}, but with ample memory {ample}")
        calls.update(line.partition(": ")[0] for line in lines)
        allocations += 1
    missing = [call for call in refusable if not calls[call]]
    if missing:
        sys.exit(f"{command.words}: {allocations} refused, but none of them to {len(missing)} calls: {', '.join(missing)}")
    named = ", ".join(f"{call} {count}" for call, count in calls.most_common())
    return f"{allocations} refused, {sum(calls.values())} of them to {len(calls)} calls: {named}"


def build_library(folder):
    """Builds the library that refuses allocations in a folder, and returns its place."""
    kit = quick.kit_folder()
    if not kit:
        sys.exit("there is no rt on the PATH, whose kit has the compiler")
    clang = [kit / "toolchain/bin/clang", "--target=x86_64-unknown-linux-gnu", "-fuse-ld=lld", "-nostdlib", "-shared"]
    library = folder / "failing.so"
    subprocess.run([*clang, "-fPIC", "-O1", "-x", "c", "-", "-o", library], input=LIBRARY, text=True, check=True)
    return library


def program_of(words, crate):
    """Returns the program of a crate: the one that the words name, else the one of this checkout."""
    if crate == "jvmx":
        return Path(words.jvmx or launcher.program_to_run()).resolve()
    program = Path(words.repeated or ROOT / "crates" / crate / "out" / crate).resolve()
    if not program.exists():
        sys.exit(f"there is no {program}: rt ci builds it, or ./launcher.py --quick {crate} FILE")
    return program


def main():
    """Tries what the words name."""
    parser = argparse.ArgumentParser(description=__doc__.split("\n\n")[0])
    parser.add_argument("--jvmx", metavar="PROGRAM", help="the program itself, and not the script that finds it")
    parser.add_argument("--calls", action="store_true", help="calls in place of commands of jvmx")
    parser.add_argument("--repeated", metavar="PROGRAM", help="the program that makes calls; else the one that rt ci left")
    parser.add_argument("--jobs", type=int, default=os.cpu_count(), help="how many runs go side by side")
    parser.add_argument("names", nargs="*", metavar="NAME", help="these cases, as they are printed; else all")
    words = parser.parse_args()
    with tempfile.TemporaryDirectory() as name:
        folder = Path(name)
        library = build_library(folder)
        cases, attempt = (failing_cases.calls(), try_calls) if words.calls else (failing_cases.commands(folder), try_command)
        for name in words.names or cases:
            case = cases[name]
            program = program_of(words, case.program)
            command = Command([program, *map(str, case.words)], case.script, case.folder, library)
            print(f"{name}: {attempt(command, words.jobs, case.refusable)}", flush=True)


if __name__ == "__main__":
    main()
