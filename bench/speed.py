#!/usr/bin/env python3
"""Times the programs of bench/java by `jvmx run` and by `java -Xint`, one after the other and some times over, and prints
for each its schedule and its turns, the seconds of both, turns a second, and how many times slower jvmx is; the last
column is how slow it may be.

    bench/speed.py [--jvmx PROGRAM] [--max N] [--times N] [NAME...]

The fastest of each is taken: of jvmx less a run of no turns, which reads and links the same classes; of java the fastest
of the mains that one process runs for a second. The programs are compiled by ecj to class files of version 49.
"""
import argparse
import os
import re
import subprocess
import sys
import tempfile
import time
from pathlib import Path

sys.dont_write_bytecode = True
sys.path.insert(0, str(Path(__file__).resolve().parent))
import java_class  # noqa: E402
import java_examples  # noqa: E402

HERE = Path(__file__).resolve().parent
AT_MOST = {"Loops": 8, "Longs": 8, "Sieve": 8, "Objects": 4, "Matrices": 8, "Throws": 6, "Locks": 5}
# The schedules of programs with threads. `AT_MOST` says of the last of them how slow a program may be.
SCHEDULES = {"Locks": ["rr:1", "rr:1000"]}
LEAST_SECONDS = 0.0005


def timed(words):
    """What a command printed on both its streams, its seconds, and the most memory that it held, in MiB."""
    with tempfile.TemporaryFile() as out, tempfile.TemporaryFile() as err:
        begin = time.perf_counter()
        child = subprocess.Popen(words, stdin=subprocess.DEVNULL, stdout=out, stderr=err)
        _, _, used = os.wait4(child.pid, 0)
        took = time.perf_counter() - begin
        child.returncode = 0
        out.seek(0)
        err.seek(0)
        return out.read(), err.read().decode("utf-8", "replace"), took, used.ru_maxrss / 1024


class Measured:
    """A program's least times so far."""

    def __init__(self, words, main, classes, schedule):
        self.words, self.main, self.schedule = words, main, schedule
        self.files = [one.path for one in java_class.program(main, classes)]
        self.empty = self.full = self.java = float("inf")
        self.turns = self.memory = 0

    def jvmx(self, most):
        options = [f"--max={most}", f"--sched={self.schedule}"]
        return timed([self.words.jvmx, "run", *options, "--entry", self.main.name, *self.files])

    def again(self, expected, folder):
        _, _, took, _ = self.jvmx(0)
        self.empty = min(self.empty, took)
        printed, said, took, self.memory = self.jvmx(self.words.max)
        status = re.search(r"(?m)^status (\w+) turns (\d+)$", said)
        if not status or status.group(1) != "Finished" or printed != expected:
            sys.exit(f"{self.main.name}: jvmx prints {printed!r}, java {expected!r}; jvmx says {said.strip()!r}")
        self.turns = int(status.group(2))
        self.full = min(self.full, took)
        java = ["java", "-Xint", "-cp", folder, "Time", self.main.name, "1"]
        least = subprocess.run(java, capture_output=True, text=True, check=True).stdout.split()[1]
        self.java = min(self.java, int(least) / 1e9)

    def line(self):
        took = max(self.full - self.empty, LEAST_SECONDS)
        ratio = took / self.java
        figures = f"{self.turns:11d} {took:8.3f} {self.turns / took:12.0f} {self.memory:7.0f}"
        java = f"{self.java:8.3f} {self.turns / self.java:12.0f}"
        return ratio, f"{self.main.name:10s} {self.schedule:8s} {figures} {java} {ratio:7.2f}"


def compiled(folder):
    boot = java_examples.stubs(folder)
    out = folder / "classes"
    java_examples.ecj(sorted((HERE / "java").glob("*.java")), out, 49, boot)
    subprocess.run(["javac", "-d", out, HERE / "Time.java"], check=True)
    classes = [java_class.ClassFile(path) for path in out.glob("*.class") if path.stem != "Time"]
    return out, {one.name: one for one in classes}


def read_words():
    parser = argparse.ArgumentParser(description=__doc__.split("\n")[0])
    parser.add_argument("--jvmx", default=HERE.parent / "jvmx", help="the program; else the one of this folder")
    parser.add_argument("--max", default=100000000, type=int, help="the most turns of a run")
    parser.add_argument("--times", default=3, type=int, help="how often each is timed")
    parser.add_argument("names", nargs="*", metavar="NAME", help="these programs; else all")
    return parser.parse_args()


def main():
    words = read_words()
    slow = False
    print("program    schedule       turns  jvmx: s, turns a second, MiB     java: s, a second   times may")
    with tempfile.TemporaryDirectory() as name:
        folder, classes = compiled(Path(name))
        for name in words.names or AT_MOST:
            expected = subprocess.run(["java", "-cp", folder, name], capture_output=True, check=True).stdout
            schedules = SCHEDULES.get(name, ["rr:1"])
            for schedule in schedules:
                measured = Measured(words, classes[name], classes, schedule)
                for _ in range(words.times):
                    measured.again(expected, folder)
                ratio, line = measured.line()
                judged = schedule == schedules[-1]
                slow |= judged and ratio > AT_MOST[name]
                print(f"{line} {AT_MOST[name]:3d}" if judged else line, flush=True)
    return 1 if slow else 0


if __name__ == "__main__":
    sys.exit(main())
