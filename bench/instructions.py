#!/usr/bin/env python3
"""Counts the processor's instructions that a turn takes in the programs of bench/java, by `valgrind --tool=callgrind` on
two lengths of a run: the same each time, whatever else runs on the machine.

    bench/instructions.py [--jvmx PROGRAM] [NAME...]

PROGRAM may be one of `./launcher.py --quick jvmx FILE`, which takes three minutes after an edit.
"""
import argparse
import re
import subprocess
import sys
import tempfile
from pathlib import Path

sys.dont_write_bytecode = True
sys.path.insert(0, str(Path(__file__).resolve().parent))
import java_class  # noqa: E402
import speed  # noqa: E402

SHORT, LONG = 100000, 300000


def instructions(words, folder):
    """How many instructions a command takes."""
    kept = Path(folder) / "callgrind.out"
    tool = ["valgrind", "--tool=callgrind", f"--callgrind-out-file={kept}"]
    said = subprocess.run([*tool, *words], capture_output=True, text=True, stdin=subprocess.DEVNULL).stderr
    return int(re.search(r"Collected : (\d+)", said).group(1))


def main():
    parser = argparse.ArgumentParser(description=__doc__.split("\n")[0])
    parser.add_argument("--jvmx", default=speed.HERE.parent / "jvmx", help="the program; else the one of this folder")
    parser.add_argument("names", nargs="*", metavar="NAME", help="these programs; else all")
    words = parser.parse_args()
    with tempfile.TemporaryDirectory() as folder:
        _, classes = speed.compiled(Path(folder))
        for name in words.names or speed.AT_MOST:
            files = [one.path for one in java_class.program(classes[name], classes)]
            for schedule in speed.SCHEDULES.get(name, ["rr:1"]):
                run = [words.jvmx, "run", f"--sched={schedule}", "--entry", name, *files]
                short, long = (instructions([*run, f"--max={most}"], folder) for most in (SHORT, LONG))
                print(f"{name:10s} {schedule:8s} {(long - short) / (LONG - SHORT):8.1f}", flush=True)


if __name__ == "__main__":
    main()
