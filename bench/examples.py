#!/usr/bin/env python3
"""Runs the commands that the sources of `examples` name in their comments, and compares what each prints with what
follows it there: `;   ./jvmx eval .. examples/G.j       12`.
"""
import re
import subprocess
import sys
from pathlib import Path

ROOT = Path(__file__).resolve().parent.parent


def main():
    failed = ran = 0
    for source in sorted((ROOT / "examples").glob("*.j")):
        for command, wanted in re.findall(r"(?m)^;\s+(\./jvmx .*?\.j)\s{2,}(.*)$", source.read_text()):
            printed = subprocess.run(command, shell=True, cwd=ROOT, capture_output=True, text=True).stdout.strip()
            ran += 1
            if printed != wanted.strip():
                failed += 1
                print(f"{source.name}: {command}: {printed!r} for {wanted.strip()!r}")
    print(f"{ran - failed} of {ran} commands print what their comments say")
    return 1 if failed or not ran else 0


sys.exit(main())
