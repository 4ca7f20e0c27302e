#!/usr/bin/env python3
"""Assembles each source of a folder by `jvmx asm` and by the assembler of the Debian package jasmin-sable, and prints
where the two classes differ: in flags, members, code, handlers or constants, as `javap -c -v -p` shows them without the
numbers of pool entries and the attributes that jvmx drops.

    bench/against_jasmin.py FOLDER
"""
import collections
import re
import subprocess
import sys
import tempfile
from pathlib import Path

HERE = Path(__file__).resolve().parent
SECONDS = 20


def shown(file):
    """The lines of javap that say what a class means."""
    run = subprocess.run(["javap", "-c", "-v", "-p", file], capture_output=True, text=True, timeout=SECONDS)
    lines, in_pool, dropped = [], False, False
    for line in run.stdout.splitlines():
        if line.startswith("Constant pool:"):
            in_pool = True
        elif line.startswith("{"):
            in_pool = False
        if in_pool or re.match(r"\s*(Classfile|Last modified|SHA|MD5|Compiled from|major version|minor version)", line):
            continue
        if re.match(r"\s*(LineNumberTable|LocalVariableTable|SourceFile)", line):
            dropped = True
            continue
        if dropped and re.match(r"\s*(line \d+|Start\s+Length|\d+\s+\d+\s+\d+\s)", line):
            continue
        dropped = False
        line = re.sub(r"#\d+(, *\d+)?", "#", re.sub(r", attributes: \d+$", "", line))
        lines.append(re.sub(r"\s+", " ", line).strip())
    return lines


def assembled_here(source, folder):
    out = Path(folder) / "here.class"
    run = subprocess.run([HERE.parent / "jvmx", "asm", source, out], capture_output=True, text=True)
    return (out, "") if run.returncode == 0 else (None, run.stderr.strip())


def assembled_there(source, folder):
    """It knows no .bytecode, and reads Latin letters alone."""
    known = Path(folder) / "there.j"
    known.write_text(re.sub(r"(?m)^\.bytecode .*$", "", source.read_text()) + "\n")
    try:
        run = subprocess.run(["jasmin", "-d", folder, known], capture_output=True, text=True, timeout=SECONDS)
    except subprocess.TimeoutExpired:
        return None, f"no end within {SECONDS} seconds"
    made = [path for path in Path(folder).rglob("*.class") if path.name != "here.class"]
    return (made[0], "") if made else (None, (run.stdout + run.stderr).strip().split("\n")[-1])


def compared(source):
    with tempfile.TemporaryDirectory() as folder:
        there, why_there = assembled_there(source, folder)
        here, why_here = assembled_here(source, folder)
        if here is None or there is None:
            if here is None and there is None:
                return "both refuse", []
            return "one refuses", [f"jvmx: {why_here or 'assembles'}; jasmin: {why_there or 'assembles'}"]
        ours, theirs = shown(here), shown(there)
        if ours == theirs:
            return "same", []
        pairs = [f"{a!r} for {b!r}" for a, b in zip(ours, theirs) if a != b]
        return "other", pairs[:3] or [f"{len(ours)} lines for {len(theirs)}"]


def main():
    counts = collections.Counter()
    for source in sorted(Path(sys.argv[1]).glob("*.j")):
        said, notes = compared(source)
        counts[said] += 1
        for note in notes:
            print(f"{source.name}: {said}: {note}")
    print(", ".join(f"{count} {said}" for said, count in counts.items()))
    return 1 if counts["other"] else 0


sys.exit(main())
