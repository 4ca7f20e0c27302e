#!/usr/bin/env python3
"""Runs each program of examples/threads under three schedules, and prints what it writes, how it ends and, with the
specification beside it or in `classes`, whether it was atomic. Where all three write the same, it is compared with what
`java -Xint` writes for the classes that `jvmx asm` makes of the sources; a program that doesn't end there within ten seconds is
reported.

    bench/thread_examples.py [--jvmx PROGRAM]
"""
import argparse
import subprocess
import sys
import tempfile
from pathlib import Path

HERE = Path(__file__).resolve().parent
FOLDER = HERE.parent / "examples" / "threads"
SCHEDULES = ["rr:1", "rr:1000", "seed:42:54"]


def files_of(source):
    """Returns the sources of a program: its own, and those of the classes within its class."""
    return [source, *sorted(FOLDER.glob(f"{source.stem}$*.j"))]


def run(jvmx, source, schedule):
    specs = [source.with_suffix(".spec"), FOLDER / "classes" / f"{source.stem}.spec"]
    judged = [f"--spec={spec}" for spec in specs if spec.exists()][:1]
    words = [jvmx, "run", f"--sched={schedule}", "--max=1000000", *judged, "--entry", source.stem, *files_of(source)]
    ran = subprocess.run(words, capture_output=True, text=True)
    return ran.stdout, ran.stderr.strip().replace("\n", "; "), ran.returncode


def by_java(jvmx, source, folder):
    for file in files_of(source):
        if subprocess.run([jvmx, "asm", file, folder / f"{file.stem}.class"]).returncode != 0:
            return None
    try:
        java = ["java", "-Xint", "-cp", folder, source.stem]
        return subprocess.run(java, capture_output=True, text=True, timeout=10).stdout
    except subprocess.TimeoutExpired:
        return None


def main():
    parser = argparse.ArgumentParser(description=__doc__.split("\n")[0])
    parser.add_argument("--jvmx", default=HERE.parent / "jvmx", help="the program; else the one of this folder")
    words = parser.parse_args()
    differs = False
    with tempfile.TemporaryDirectory() as folder:
        for source in sorted(source for source in FOLDER.glob("*.j") if "$" not in source.stem):
            written = set()
            for schedule in SCHEDULES:
                out, said, status = run(words.jvmx, source, schedule)
                written.add(out)
                print(f"{source.stem:20s} {schedule:10s} {status} {out.strip()!r:24s} {said}", flush=True)
            if len(written) == 1:
                java = by_java(words.jvmx, source, Path(folder))
                same = "no end" if java is None else "same" if {java} == written else f"java writes {java!r}"
                differs |= same.startswith("java")
                print(f"{source.stem:20s} java       {same}", flush=True)
    return 1 if differs else 0


if __name__ == "__main__":
    sys.exit(main())
