"""Proves and builds a program of this repository, the crates that it depends on side by side: as many at a time as there are
processors and memory.

Only one `rt` at a time works in a crate and in those below it, so each worker has a copy of the sources, in which it builds
one library after another. `rt` takes from the others what they have built of the same text. At last the program is built
here, over all of it. Where `rt` can't keep what it builds beside the kit, it builds one crate after another, here.
"""
import os
import shutil
import tempfile
from concurrent.futures import FIRST_COMPLETED, ThreadPoolExecutor, wait
from pathlib import Path

from jvmx_build import commands

ROOT = Path(__file__).resolve().parent.parent
# What the check of a crate takes at most, but for a few.
BYTES_A_CHECK = 3 * 2**30
# The part of the longest way from which on the program waits for a crate.
NEARLY = 0.85


def crates():
    """Returns the repository's crates, each with those of them that its own line in crates.txt names."""
    lines = [line.partition("#")[0].partition(":") for line in (ROOT / "crates.txt").read_text().splitlines()]
    named = {name.split()[0]: words.split() for name, _, words in lines if name.strip()}
    return {name: [one for one in words if one in named] for name, words in named.items()}


def weight(name):
    """Returns a measure of how long the check of a crate takes: its lines of code, and a constant."""
    return 100 + sum(one.read_bytes().count(b"\n") for one in (ROOT / "crates" / name / "src").rglob("*.rt"))


def closure(name, below):
    """Returns the crates that one depends on, without itself."""
    found, todo = set(), list(below[name])
    while todo:
        one = todo.pop()
        if one not in found:
            found.add(one)
            todo += below[one]
    return found


def ways(needed, below):
    """Returns for each crate the weight of the longest chain of crates from it upwards."""
    above = {one: [other for other in needed if one in below[other]] for one in needed}
    found = {}

    def way(one):
        if one not in found:
            found[one] = weight(one) + max(map(way, above[one]), default=0)
        return found[one]

    return {one: way(one) for one in needed}


def store_is_usable():
    """Returns whether `rt` can keep what it builds beside the kit, where others find it."""
    store = Path(shutil.which("rt")).resolve().parent.parent.parent / "rattle-kept"
    return os.access(store if store.exists() else store.parent, os.W_OK)


def workers():
    """Returns how many checks may run side by side."""
    available = next(int(line.split()[1]) * 1024 for line in open("/proc/meminfo") if line.startswith("MemAvailable"))
    return max(1, min(len(os.sched_getaffinity(0)), available // BYTES_A_CHECK))


def copy_sources(into):
    """Copies what a check reads."""
    shutil.copy(ROOT / "crates.txt", into)
    shutil.copy(ROOT / "HANDLES", into)
    shutil.copytree(ROOT / "crates", into / "crates", ignore=shutil.ignore_patterns("out", "must-fail"))


def build_library(root, name, jobs):
    """Builds the library of a crate in a copy, and returns what was said if it failed."""
    return commands.said_if_failed(["rt", "lib", "--jobs", str(jobs)], root / "crates" / name)


def build_side_by_side(needed, below, copies, report):
    """Builds libraries in copies of the sources, each after those that it depends on, those with the longest way first.
    Those with nearly the longest way of all get two processors, since the program waits for them."""
    way = ways(needed, below)
    todo, done, free, running = set(needed), set(), list(copies), {}
    with ThreadPoolExecutor(len(copies)) as pool, commands.ended_together():
        while todo or running:
            longest = max(way[one] for one in [*todo, *(name for name, _ in running.values())])
            ready = sorted((one for one in todo if set(below[one]) <= done), key=lambda one: -way[one])
            share = len(copies) // (len(running) + len(ready))
            for name in ready[: len(free)]:
                todo.remove(name)
                root = free.pop()
                jobs = max(share, 2 if way[name] > NEARLY * longest else 1)
                running[pool.submit(build_library, root, name, jobs)] = (name, root)
            ended, _ = wait(running, return_when=FIRST_COMPLETED)
            for one in ended:
                name, root = running.pop(one)
                if one.result():
                    return one.result()
                done.add(name)
                free.append(root)
                report(f"proving, {len(done)} of {len(needed) + 1} crates are done")
    return None


def build_over_copies(program, report):
    """Builds libraries side by side, and the program over them here. Returns what was said if that failed."""
    below = crates()
    with tempfile.TemporaryDirectory(prefix="jvmx-build-") as folder:
        copies = [Path(folder) / str(number) for number in range(workers())]
        for one in copies:
            one.mkdir()
            copy_sources(one)
        failed = build_side_by_side(closure(program, below), below, copies, report)
        return failed or build_here(program)


def build_here(program):
    """Builds a program in this checkout, and returns what was said if it failed."""
    return commands.said_if_failed(["rt", "run", "--", "--version"], ROOT / "crates" / program)


def build(program, report):
    """Proves and builds the program of a crate, which becomes its out/NAME. Returns what was said where that fails, else
    None. `report` gets what is done, in words."""
    if workers() > 1 and store_is_usable():
        return build_over_copies(program, report)
    return build_here(program)
