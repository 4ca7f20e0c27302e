#!/usr/bin/env python3
"""Times what a turn costs under a schedule, by the number of threads: a program whose threads all count in loops runs for
N turns by `rr:1`, by `rr:1000` and by `seed:1:2`. The nanoseconds of a turn, with its choice, are printed.

    bench/choices.py [--jvmx PROGRAM] [--turns N]
"""
import argparse
import subprocess
import sys
import tempfile
import time
from pathlib import Path

sys.dont_write_bytecode = True
HERE = Path(__file__).resolve().parent
SOURCE = """.class public Spin
.super java/lang/Thread
.method public <init>()V
  aload_0
  invokenonvirtual java/lang/Thread/<init>()V
  return
.end method
.method public run()V
  .limit locals 2
  iconst_0
  istore_1
Top:
  iinc 1 1
  goto Top
.end method
.method public static main([Ljava/lang/String;)V
  .limit stack 2
  .limit locals 2
  sipush {others}
  istore_1
Next:
  iload_1
  ifeq Spinning
  new Spin
  dup
  invokespecial Spin/<init>()V
  invokevirtual Spin/start()V
  iinc 1 -1
  goto Next
Spinning:
  goto Spinning
.end method
"""


def timed(words, source, schedule, turns):
    begin = time.perf_counter()
    command = [words.jvmx, "run", f"--sched={schedule}", f"--max={turns}", "--entry", "Spin", source]
    said = subprocess.run(command, capture_output=True, text=True).stderr
    if f"turns {turns}" not in said:
        sys.exit(f"{schedule}: {said.strip()!r}")
    return time.perf_counter() - begin


def main():
    parser = argparse.ArgumentParser(description=__doc__.split("\n")[0])
    parser.add_argument("--jvmx", default=HERE.parent / "jvmx", help="the program; else the one of this folder")
    parser.add_argument("--turns", default=200_000, type=int, help="how many turns each run takes")
    words = parser.parse_args()
    print("threads  schedule   ns a turn")
    with tempfile.TemporaryDirectory() as folder:
        source = Path(folder) / "Spin.j"
        # A run may have 64 threads.
        for threads in (2, 16, 64):
            source.write_text(SOURCE.format(others=threads - 1))
            for schedule in ("rr:1", "rr:1000", "seed:1:2"):
                # The threads are started by the first turns, which are thread 0's alone.
                least = min(timed(words, source, schedule, 0) for _ in range(3))
                took = min(timed(words, source, schedule, words.turns) for _ in range(3))
                print(f"{threads:7d}  {schedule:9s} {1e9 * (took - least) / words.turns:9.0f}", flush=True)


if __name__ == "__main__":
    main()
