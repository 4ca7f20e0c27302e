#!/usr/bin/env python3
"""Runs jvmx on a file of the most bytes that a FILE may have, which is read, and on one with a byte more, which is refused.

    bench/file_sizes.py [--jvmx PROGRAM]

The files are of zeros, so that the first isn't a class file.
"""
import argparse
import os
import subprocess
import sys
import tempfile
from pathlib import Path

ROOT = Path(__file__).resolve().parent.parent
REFUSALS = {67_108_864: "C02 Magic", 67_108_865: "P01 FileTooLarge"}


def differs(jvmx, folder, size, refusal):
    """Lists a file of zeros of a size. Prints what is wrong, and returns whether anything is."""
    name = Path(folder) / f"{size}"
    name.touch()
    os.truncate(name, size)
    ran = subprocess.run([jvmx, "list", name], capture_output=True, text=True)
    if (ran.returncode, ran.stdout, ran.stderr) == (2, "", f"jvmx: {name}: {refusal}\n"):
        return False
    print(f"a file of {size} bytes isn't {refusal}: {ran}")
    return True


def main():
    """Tries both sizes."""
    parser = argparse.ArgumentParser(description=__doc__.split("\n\n")[0])
    parser.add_argument("--jvmx", default=str(ROOT / "jvmx"))
    words = parser.parse_args()
    with tempfile.TemporaryDirectory() as folder:
        sys.exit(any([differs(words.jvmx, folder, size, refusal) for size, refusal in REFUSALS.items()]))


if __name__ == "__main__":
    main()
