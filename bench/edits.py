#!/usr/bin/env python3
"""Tries the must-fail edits of bench/edits: wrong code that the prover has to refuse, too dear for the gate.

    bench/edits.py CRATE...     tries the edits of these crates
    bench/edits.py              lists the crates that have edits here

The edits are tried by `rt must-fail` in a copy of the sources, so the checkout stays as it is. A crate takes the time of one
check from nothing, and then of a check for each edit. The exit status is 0 only where each edit is refused.
"""
import shutil
import subprocess
import sys
import tempfile
from pathlib import Path

ROOT = Path(__file__).resolve().parent.parent
EDITS = ROOT / "bench" / "edits"


def edits_of(crate):
    """Lists the edits of a crate."""
    return sorted((EDITS / crate).glob("*.edit"))


def copy_sources(into):
    """Copies what a check reads, without the edits that the gate tries."""
    for file in ("crates.txt", "HANDLES"):
        shutil.copy(ROOT / file, into)
    shutil.copytree(ROOT / "crates", into / "crates", ignore=shutil.ignore_patterns("out", "must-fail"))


def try_edits(crates):
    """Tries the edits of some crates, and returns the exit status of `rt must-fail`."""
    with tempfile.TemporaryDirectory(prefix="jvmx-edits-") as folder:
        copy = Path(folder)
        copy_sources(copy)
        for crate in crates:
            shutil.copytree(EDITS / crate, copy / "crates" / crate / "must-fail")
        return subprocess.run(["rt", "must-fail", *crates], cwd=copy).returncode


def main():
    crates = sys.argv[1:]
    if any(word.startswith("-") for word in crates):
        sys.exit(__doc__.strip())
    if not crates:
        for folder in sorted(EDITS.iterdir()):
            print(f"{folder.name}: {len(edits_of(folder.name))}")
        return
    without = [crate for crate in crates if not edits_of(crate)]
    if without:
        sys.exit(f"bench/edits has nothing of {', '.join(without)}")
    sys.exit(try_edits(crates))


if __name__ == "__main__":
    main()
