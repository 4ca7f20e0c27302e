#!/usr/bin/env python3
"""Runs class files by jvmx and by java, and prints where they differ.

    bench/against_java.py [--jvmx PROGRAM] [--max N] [--programs | --calls] FILE.class...

Programs: each class with a `main` is run by `jvmx run` and by java. What they print has to be the same byte for byte, and
so have the exceptions that nobody catches. Calls: each static method of ints and longs is called by `jvmx eval` and by
java, with some numbers. A class is run with those of the files that it names, and that these name.

Ends with two counts: of what gave the same, what gave something else, and what jvmx refused or didn't finish, such as a
program that uses what jvmx doesn't have; such a one has to print a beginning of what java prints.
"""
import argparse
import collections
import re
import subprocess
import sys
import tempfile
from pathlib import Path

sys.dont_write_bytecode = True
sys.path.insert(0, str(Path(__file__).resolve().parent))
import java_class  # noqa: E402

HERE = Path(__file__).resolve().parent
SECONDS = 300
JAVA = ["java", "-Dfile.encoding=UTF-8", "-Dsun.stdout.encoding=UTF-8", "-Dstdout.encoding=UTF-8"]

# What a program printed, the classes of the exceptions that nobody caught, and whether it came to its end.
Run = collections.namedtuple("Run", "printed uncaught finished said")


def ran(words):
    run = subprocess.run(words, capture_output=True, timeout=SECONDS, stdin=subprocess.DEVNULL)
    return run, run.stderr.decode("utf-8", "replace")


def by_java(main):
    run, said = ran([*JAVA, "-cp", main.root(), main.name.replace("/", ".")])
    uncaught = re.findall(r'(?m)^Exception in thread "[^"]*" ([^\s:]+)', said)
    return Run(run.stdout, sorted(name.replace(".", "/") for name in uncaught), True, said)


def by_jvmx(words, main, files):
    limit = [f"--max={words.max}"] if words.max else []
    run, said = ran([words.jvmx, "run", "--entry", main.name, *limit, *files])
    uncaught = re.findall(r"(?m)^uncaught \d+ (.*)$", said)
    return Run(run.stdout, sorted(uncaught), bool(re.search(r"(?m)^status Finished ", said)), said)


def compared(wanted, given):
    if given.finished:
        return "same" if (given.printed, given.uncaught) == (wanted.printed, wanted.uncaught) else "other"
    return "unfinished" if wanted.printed.startswith(given.printed) else "other"


def difference(wanted, given):
    """The first line that differs, else what was uncaught, else what jvmx said last."""
    for number, (one, other) in enumerate(zip(wanted.printed.split(b"\n"), given.printed.split(b"\n")), 1):
        if one != other and given.finished:
            return f"line {number}: jvmx prints {other!r}, java {one!r}"
    if given.finished:
        return f"uncaught in jvmx {given.uncaught}, in java {wanted.uncaught}"
    return (given.said.strip().split("\n") or [""])[-1]


def programs(words, classes, counts):
    for main in filter(java_class.ClassFile.has_main, classes.values()):
        files = [one.path for one in java_class.program(main, classes)]
        try:
            wanted, given = by_java(main), by_jvmx(words, main, files)
        except subprocess.TimeoutExpired as late:
            counts["unfinished"] += 1
            print(f"{main.path}: unfinished: {late.cmd[0]} takes more than {SECONDS} seconds")
            continue
        said = compared(wanted, given)
        counts[said] += 1
        if said != "same":
            print(f"{main.path}: {said}: {difference(wanted, given)}")


def calls(root, classes):
    """The calls of java: class, entry, arguments, result."""
    with tempfile.TemporaryDirectory() as folder:
        subprocess.run(["javac", "-d", folder, HERE / "Call.java"], check=True)
        run = subprocess.run(["java", "-cp", folder, "Call", root, *classes], capture_output=True, text=True, check=True)
    return [line.split(" ")[1:] for line in run.stdout.splitlines() if line.startswith("call ")]


def evaluated(words, entry, arguments, files):
    given = [] if arguments == "-" else [f"--args={arguments}"]
    run, _ = ran([words.jvmx, "eval", "--entry", entry, *given, *files])
    return run.stdout.decode().strip() if run.returncode == 0 else None


def called(words, root, classes, counts):
    for name, entry, arguments, wanted in calls(root, classes):
        files = [one.path for one in java_class.program(classes[name], classes)]
        given = evaluated(words, entry, arguments, files)
        said = "unfinished" if given is None else "same" if given == wanted else "other"
        counts[said] += 1
        if said == "other":
            print(f"{classes[name].path} {entry} {arguments}: eval gives {given}, java {wanted}")


def read_words():
    parser = argparse.ArgumentParser(description=__doc__.split("\n")[0])
    parser.add_argument("--jvmx", default=HERE.parent / "jvmx", help="the program; else the one of this folder")
    parser.add_argument("--max", help="the most turns of a run")
    parser.add_argument("--programs", action="store_true", help="programs alone")
    parser.add_argument("--calls", action="store_true", help="calls alone")
    parser.add_argument("files", nargs="+", metavar="FILE.class")
    return parser.parse_args()


def main():
    words = read_words()
    roots = {}
    for path in words.files:
        one = java_class.ClassFile(path)
        roots.setdefault(one.root(), {})[one.name] = one
    ran_programs, ran_calls = collections.Counter(), collections.Counter()
    for root, classes in roots.items():
        if not words.calls:
            programs(words, classes, ran_programs)
        if not words.programs:
            called(words, root, classes, ran_calls)
    for what, counts in (("programs", ran_programs), ("calls", ran_calls)):
        if counts:
            print(f"{what}:", ", ".join(f"{counts[said]} {said}" for said in ("same", "other", "unfinished")))
    return 1 if ran_programs["other"] + ran_calls["other"] else 0


if __name__ == "__main__":
    sys.exit(main())
