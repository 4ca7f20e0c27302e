#!/usr/bin/env python3
"""Tests that failing_memory.py fails where a program refuses nothing, as /bin/true does.

    bench/failing_memory_tests.py

The exit status is 1 if it doesn't. The gate runs it. It needs the kit, whose compiler builds what refuses allocations.
"""
import subprocess
import sys
from pathlib import Path

SCRIPT = Path(__file__).resolve().parent / "failing_memory.py"
NOTHING = "/bin/true"
# The words, and what the script has to say.
CASES = {
    "a command": (["--jvmx", NOTHING, "debug"], "0 runs were refused"),
    "calls": (["--calls", "--repeated", NOTHING, "reading"], "none of them to"),
}


def main():
    wrong = 0
    for name, (words, wanted) in CASES.items():
        ran = subprocess.run([SCRIPT, *words], capture_output=True, text=True, timeout=120)
        if ran.returncode != 1 or wanted not in ran.stderr:
            print(f"{name} that refuses nothing: exit {ran.returncode}, {ran.stderr or ran.stdout}")
            wrong += 1
    return 1 if wrong else 0


if __name__ == "__main__":
    sys.exit(main())
