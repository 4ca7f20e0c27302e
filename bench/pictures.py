#!/usr/bin/env python3
"""Draws the traces of examples/threads under three schedules, and has xmllint and Graphviz read the pictures.

    bench/pictures.py [--jvmx PROGRAM]

Needs Debian's packages libxml2-utils and graphviz. Prints how many pictures were read, and ends with 1 if one wasn't.
"""
import argparse
import subprocess
import sys
import tempfile
from pathlib import Path

ROOT = Path(__file__).resolve().parent.parent
THREADS = ROOT / "examples" / "threads"
SCHEDULES = ["rr:1", "rr:99", "seed:0:1"]
# Which methods are to be atomic: all, so that each call is a box.
SPECIFICATION = "atomic *\n"
READERS = {"--svg": ["xmllint", "--noout"], "--dot": ["dot", "-Tsvg", "-o", "/dev/null"]}


def pictures(jvmx, trace, specification):
    """Returns the picture of a trace, and its graph, each by the word that names its reader."""
    words = [jvmx, "picture", "--spec", specification]
    drawn = {"--svg": [*words, trace], "--dot": [*words, "--dot", trace]}
    return {kind: subprocess.run(command, check=True, capture_output=True).stdout for kind, command in drawn.items()}


def is_read(kind, picture, file):
    """Returns whether the reader of a kind of picture takes it."""
    file.write_bytes(picture)
    return subprocess.run([*READERS[kind], file], capture_output=True).returncode == 0


def main():
    """Draws and reads all."""
    parser = argparse.ArgumentParser(description=__doc__.split("\n\n")[0])
    parser.add_argument("--jvmx", metavar="PROGRAM", default=ROOT / "jvmx")
    jvmx = Path(parser.parse_args().jvmx).resolve()
    read, refused = 0, []
    with tempfile.TemporaryDirectory() as name:
        folder = Path(name)
        trace, specification = folder / "trace", folder / "spec"
        specification.write_text(SPECIFICATION)
        for source in sorted(THREADS.glob("*.j")):
            for schedule in SCHEDULES:
                words = [jvmx, "trace", "--entry", source.stem, "--sched", schedule, "--max", "20000", source]
                trace.write_bytes(subprocess.run(words, capture_output=True).stdout)
                for kind, picture in pictures(jvmx, trace, specification).items():
                    if is_read(kind, picture, folder / "picture"):
                        read += 1
                    else:
                        refused.append(f"{source.name} under {schedule}, {kind}")
    print(f"{read} pictures were read")
    for one in refused:
        print(f"not read: {one}")
    sys.exit(bool(refused))


if __name__ == "__main__":
    main()
