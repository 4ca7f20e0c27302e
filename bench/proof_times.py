#!/usr/bin/env python3
"""Watches the checks that run on this machine, and reports what they took: for each crate the seconds of a processor and the
most memory of its proof, its tests and its must-fail edits, and of `rt check`; and which functions were the slowest of a
crate.

    bench/proof_times.py watch FILE          until it is interrupted, keeps what it sees in FILE
    bench/proof_times.py table FILE          the crates, those that took most first
    bench/proof_times.py functions FILE CRATE [HOW_MANY]

A check writes a file for each module that it has checked, into a folder of its own, so the time between two such files is
that of the second one's module. Of the edits it is the check that they begin with. `NAME.Lts` is the borrow checker's
part of a function: it grows with what the function owns at each of its exits, `?` among them.
"""
import collections
import json
import os
import re
import sys
import tempfile
import time
from pathlib import Path

MODULES = "rattle-logic-built-locked-"
TICK = os.sysconf("SC_CLK_TCK")
PAGE = os.sysconf("SC_PAGE_SIZE")


def folder_of(pid, words):
    """Where a check writes its modules."""
    if "--incremental" not in words:
        return next(Path(tempfile.gettempdir()).glob(f"{MODULES}{pid}-*"), None)
    begun = Path(words[words.index("--incremental") + 1])
    folders = begun.glob("antt-checked-*") if begun.name == "seed" else []
    return next((one for one in folders if one.is_dir()), None)


def process(pid):
    """What a process is and has taken, if it is a check."""
    words = Path(f"/proc/{pid}/cmdline").read_bytes().decode(errors="replace").split("\0")
    if not words[0].endswith("/rattle") or "--crate-name" not in words:
        return None
    fields = Path(f"/proc/{pid}/stat").read_text().rpartition(")")[2].split()
    pages = int(Path(f"/proc/{pid}/statm").read_text().split()[1])
    kind = "tests" if "--test" in words else "proof"
    if "--incremental" in words:
        kind = "edits" if "/rt-edits-" in words[words.index("--incremental") + 1] else "alone"
    return {
        "crate": words[words.index("--crate-name") + 1],
        "kind": kind,
        "seconds": sum(map(int, fields[11:15])) / TICK,
        "gb": pages * PAGE / 2**30,
        "begun": fields[19],
        "modules": modules(folder_of(pid, words)),
    }


def modules(folder):
    """The modules that a check has written, each with its time."""
    return sorted((one.stat().st_mtime, re.sub(r"\.oantt$", "", one.name)) for one in os.scandir(folder)) if folder else []


def look(seen):
    for pid in filter(str.isdigit, os.listdir("/proc")):
        try:
            found = process(pid)
            if found is None:
                continue
            known = seen.setdefault(f"{pid}-{found.pop('begun')}", {"gb": 0})
            found["gb"] = max(found["gb"], known["gb"])
            found["modules"] = found["modules"] or known.get("modules", [])
            known.update(found)
        except (OSError, IndexError, ValueError):
            # The process or its folder has ended meanwhile.
            continue


def watch(file):
    seen = {}
    try:
        while True:
            look(seen)
            Path(file).write_text(json.dumps(seen))
            time.sleep(5)
    except KeyboardInterrupt:
        Path(file).write_text(json.dumps(seen))


def table(file):
    sums = collections.defaultdict(lambda: collections.defaultdict(lambda: [0, 0]))
    for check in json.loads(Path(file).read_text()).values():
        for name in (check["crate"], "all"):
            entry = sums[name][check["kind"]]
            entry[0] += check["seconds"]
            entry[1] = max(entry[1], check["gb"])
    kinds = ("proof", "tests", "edits", "alone")
    print(f"{'crate':20}" + "".join(f"{kind + ': s, GB':>16}" for kind in kinds))
    for name, row in sorted(sums.items(), key=lambda item: -sum(entry[0] for entry in item[1].values())):
        print(f"{name:20}" + "".join(f"{row[kind][0]:10.0f}{row[kind][1]:6.1f}" for kind in kinds))


def functions(file, crate, how_many=20):
    times = collections.Counter()
    for check in json.loads(Path(file).read_text()).values():
        if check["crate"] == crate:
            for (before, _), (after, name) in zip(check["modules"], check["modules"][1:]):
                times[f"{check['kind']}  {name}"] = max(times[f"{check['kind']}  {name}"], after - before)
    for name, seconds in times.most_common(int(how_many)):
        print(f"{seconds:8.1f}  {name}")


if __name__ == "__main__":
    commands = {"watch": watch, "table": table, "functions": functions}
    if len(sys.argv) < 3 or sys.argv[1] not in commands:
        sys.exit(__doc__)
    commands[sys.argv[1]](*sys.argv[2:])
