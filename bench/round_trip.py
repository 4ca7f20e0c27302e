#!/usr/bin/env python3
"""Lists each class file by `jvmx list`, assembles the listing, lists what it was assembled to, and compares both listings:
they are equal where both classes mean the same, but for an `ldc` that grew to `ldc_w` since its entry has a higher number
now. Prints what isn't listed and why, and where the listings differ.

    bench/round_trip.py FILE.class...
"""
import collections
import re
import subprocess
import sys
import tempfile
from pathlib import Path

JVMX = Path(__file__).resolve().parent.parent / "jvmx"


def ran(*words):
    return subprocess.run([JVMX, *words], capture_output=True, text=True)


def without_widths(listing):
    return re.sub(r"(?m)^  ldc_w ", "  ldc ", listing)


def turned(file, folder):
    source, out = Path(folder) / "Listed.j", Path(folder) / "Out.class"
    listed = ran("list", file)
    if listed.returncode != 0:
        return listed.stderr.strip().split(": ")[-1]
    source.write_text(listed.stdout)
    assembled = ran("asm", source, out)
    if assembled.returncode != 0:
        return f"not assembled: {assembled.stderr.strip()}"
    return "same" if without_widths(ran("list", out).stdout) == without_widths(listed.stdout) else "other"


def main():
    counts = collections.Counter()
    with tempfile.TemporaryDirectory() as folder:
        for file in sys.argv[1:]:
            said = turned(file, folder)
            counts[said] += 1
            if said != "same":
                print(f"{file}: {said}")
    print(", ".join(f"{count} {said}" for said, count in counts.items()))
    return 0 if set(counts) <= {"same", "L01 Name", "L02 Float"} else 1


sys.exit(main())
