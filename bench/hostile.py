#!/usr/bin/env python3
"""Runs jvmx on large inputs of the nastiest shapes for its readers and what follows them, each at two sizes, the second
twice the first. Prints the processor's seconds and the most memory of both, and how many times each grew.

    bench/hostile.py [--jvmx PROGRAM] [--seed N] [--size MIB] [--only NAME..] [--list]

The exit status is 1 where an input that isn't in KNOWN grows a run faster than itself, ends it by a signal or not at all,
takes all memory, goes beyond the bound of its shape, or has an answer that its shape doesn't have. The files hostile_*.py
have the shapes. A size is in MiB, or a whole number of turns, jobs or classes. Many shapes make thousands of files:
TMPDIR=/dev/shm keeps them in memory.
"""
import argparse
import collections
import json
import os
import random
import re
import resource
import subprocess
import sys
import tempfile
import threading
import time
import traceback
from pathlib import Path

sys.dont_write_bytecode = True
HERE = Path(__file__).resolve().parent
sys.path.insert(0, str(HERE))
import hostile_classes  # noqa: E402, F401
import hostile_linking  # noqa: E402, F401
import hostile_texts  # noqa: E402, F401, I001
import hostile_traces  # noqa: E402, F401
import hostile_runs  # noqa: E402, F401
import hostile_debug  # noqa: E402, F401
import hostile_members  # noqa: E402, F401
from hostile_shapes import MIB, SHAPES, TRIALS, encoded  # noqa: E402

# How many times more than its input a run may grow, and from where on it counts.
BOUND = 1.3
LEAST_SECONDS = 0.2
LEAST_MIB = 64
ADDRESS_SPACE = 6 << 30
# How many times the processor's seconds of a run it may take by the clock.
WAIT = 8
# How often a run is repeated that grew faster than its input: beside other work the processor's seconds vary.
REPEATS = 3
TRIES = 100
REFUSAL = re.compile(rb"jvmx: (?:.*: )?(?:([A-Z]\d\d) \w+|(Memory)$)")
STATUS = re.compile(rb"(?m)^status (\w+) turns")
MEMORY = {"E02", "X02", "F03", "C18", "J12", "A06", "L03", "K06", "M03", "S03", "G04", "G05", "Memory"}
# Shapes that grow faster than their inputs, or don't end, and why.
KNOWN = {
    # Links that lead back, each into a transaction that reaches many others (atom_order::Graph::link).
    "moved_back",
}

Ran = collections.namedtuple("Ran", "size seconds mib answer")


def limit(seconds):
    """Limits the memory and the processor's seconds of a process that begins, and lets it leave no core."""
    for what, most in [(resource.RLIMIT_AS, ADDRESS_SPACE), (resource.RLIMIT_CPU, seconds), (resource.RLIMIT_CORE, 0)]:
        resource.setrlimit(what, (most, most))


def answer(status, said, is_late):
    """Returns how a run ended: the code of a refusal, the status of a run, or the exit status."""
    if is_late:
        return "no end"
    if os.WIFSIGNALED(status):
        return f"signal {os.WTERMSIG(status)}"
    code = os.WEXITSTATUS(status)
    refusal = REFUSAL.match(said.rstrip(b"\n").rsplit(b"\n", 1)[-1])
    if refusal and code in (2, 3):
        return (refusal.group(1) or refusal.group(2)).decode()
    if code > 1:
        return f"exit {code}"
    found = STATUS.search(said)
    return found.group(1).decode() if found and found.group(1) != b"Finished" else str(code)


def run(program, plan, folder, seconds):
    """Runs a plan, and returns how it ended."""
    with open(folder / "script", "rb") as script, tempfile.TemporaryFile() as said:
        words = [program, *plan["words"]]
        streams = {"stdin": script, "stdout": subprocess.DEVNULL, "stderr": said}
        child = subprocess.Popen(words, cwd=folder, preexec_fn=lambda: limit(seconds), **streams)
        late = threading.Event()
        timer = threading.Timer(WAIT * seconds, lambda: (late.set(), child.kill()))
        timer.start()
        _, status, used = os.wait4(child.pid, 0)
        timer.cancel()
        child.returncode = 0
        said.seek(max(0, said.seek(0, 2) - 4 * MIB))
        took = used.ru_utime + used.ru_stime
        return Ran(plan["size"], took, used.ru_maxrss / 1024, answer(status, said.read(), late.is_set() or took > seconds - 1))


def planned(make, size, folder):
    """Makes an input in a folder, and returns its plan. A process of its own does it: a process begins with the memory of
    the one that starts it as its most."""
    child = os.fork()
    if not child:
        try:
            write(make(size), folder)
        except BaseException:  # the process ends here, whatever happens
            traceback.print_exc()
        os._exit(0)
    os.waitpid(child, 0)
    return json.loads((folder / "plan").read_text())


def write(made, folder):
    """Writes the files of an input, its script and its plan into a folder."""
    made.files = encoded(made.files)
    for name, data in made.files.items():
        (folder / name).write_bytes(data)
    (folder / "script").write_bytes(made.script)
    (folder / "plan").write_text(json.dumps({"words": made.words, "size": made.size(), "is_count": made.count > 0}))


def grown(first, second):
    """Returns how many times the seconds and the memory of a run grew, None where they don't count."""
    seconds = second.seconds / max(first.seconds, 0.001) if second.seconds >= LEAST_SECONDS else None
    return seconds, second.mib / first.mib if second.mib >= LEAST_MIB else None


def is_faster(first, second):
    """Whether a run grew faster than its input."""
    most = BOUND * second.size / first.size
    return any(factor is not None and factor > most for factor in grown(first, second))


def least(one, other):
    """Returns the less of the seconds and of the memory of two runs of one input."""
    return one._replace(seconds=min(one.seconds, other.seconds), mib=min(one.mib, other.mib))


def fault(ran, answers):
    """Returns what is wrong with the answer of a run, or nothing."""
    is_wrong = ran.answer in MEMORY or " " in ran.answer or answers and ran.answer not in answers
    return ran.answer if is_wrong and not (answers and ran.answer in answers) else ""


def measured(words, name, folders):
    """Runs a shape at both sizes, again where it grew too fast; returns both runs, whether sizes are counts, and what is
    wrong."""
    shape = SHAPES[name]
    most = shape.bound.count if shape.bound else words.size * MIB
    sizes = [most // 2, most]
    seed = f"{words.seed} {name}"
    plans = [planned(lambda n: shape.make(int(n), random.Random(seed)), *pair) for pair in zip(sizes, folders)]
    both = ran_once(words, plans, folders)
    wrong = next(filter(None, (fault(ran, shape.answers) for ran in both)), "")
    for _ in range(0 if wrong or name in KNOWN else REPEATS):
        if excess(shape, both):
            both = [least(*pair) for pair in zip(both, ran_once(words, plans, folders))]
    return *both, plans[1]["is_count"], wrong or excess(shape, both)


def excess(shape, both):
    """Returns what is wrong with the seconds and the memory of both runs of a shape, or nothing."""
    if is_faster(*both):
        return "grows"
    return "beyond its bound" if shape.bound and both[1].seconds > shape.bound.seconds else ""


def ran_once(words, plans, folders):
    """Runs both plans of a shape."""
    return [run(words.jvmx, plan, folder, words.limit) for plan, folder in zip(plans, folders)]


def line(name, first, second, is_count, wrong):
    """Returns the line of a shape."""
    size = "{:9d}".format if is_count else lambda n: f"{n / MIB:9.2f}"
    factors = "".join(f"{factor:6.1f}" if factor else "     -" for factor in grown(first, second))
    sizes = size(first.size) + size(second.size)
    figures = f"{first.seconds:8.2f}{second.seconds:8.2f}{first.mib:7.0f}{second.mib:7.0f}"
    known = f"  {wrong}{', known' if name in KNOWN else ''}" if wrong else ""
    return f"{name:22s}{sizes}{figures}{factors}  {second.answer}{known}"


def tried(words, name):
    """Tries a trial, and returns how often it had which answer, and those that are wrong."""
    answers = collections.Counter()
    for number in range(words.tries):
        with tempfile.TemporaryDirectory() as folder:
            plan = planned(lambda n: TRIALS[name](random.Random(f"{words.seed} {name} {n}")), number, Path(folder))
            answers[run(words.jvmx, plan, Path(folder), words.limit).answer] += 1
    return answers, [one for one in answers if " " in one or one in MEMORY]


def read_words():
    parser = argparse.ArgumentParser(description=__doc__.split("\n\n")[0])
    parser.add_argument("--jvmx", default=str(HERE.parent / "jvmx"), help="the program; else the one of this folder")
    parser.add_argument("--seed", default=0, type=int, help="another seed makes other random bytes")
    parser.add_argument("--size", default=8, type=float, metavar="MIB", help="the larger size of each input, at most 64")
    parser.add_argument("--limit", default=60, type=int, metavar="SECONDS", help="the most processor's seconds of a run")
    parser.add_argument("--tries", default=TRIES, type=int, metavar="N", help="how often each small input is tried")
    parser.add_argument("--only", nargs="+", metavar="NAME", help="these shapes; else all")
    parser.add_argument("--list", action="store_true", help="prints the names of the shapes, and what each is")
    words = parser.parse_args()
    words.jvmx = str(Path(words.jvmx).resolve())
    return words


def listed():
    """Prints the shapes."""
    for name, make in [*((name, shape.make) for name, shape in SHAPES.items()), *TRIALS.items()]:
        print(f"{name:22s} {make.__doc__}")


def main():
    words = read_words()
    if words.list:
        return listed()
    begin, unknown, known = time.monotonic(), [], []
    print("shape                       sizes, MiB         seconds   memory, MiB   times more  answer")
    for name in (name for name in words.only or SHAPES if name in SHAPES):
        with tempfile.TemporaryDirectory() as one, tempfile.TemporaryDirectory() as other:
            first, second, is_count, wrong = measured(words, name, [Path(one), Path(other)])
        print(line(name, first, second, is_count, wrong), flush=True)
        if wrong:
            (known if name in KNOWN else unknown).append(name)
    for name in (name for name in words.only or TRIALS if name in TRIALS):
        answers, wrong = tried(words, name)
        print(f"{name:22s}{', '.join(f'{n} {one}' for one, n in answers.most_common())}", flush=True)
        unknown += [name] if wrong else []
    print(f"{len(unknown)} wrong: {' '.join(unknown)}; {len(known)} known; {time.monotonic() - begin:.0f} s")
    return 1 if unknown else 0


if __name__ == "__main__":
    sys.exit(main())
