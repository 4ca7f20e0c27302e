#!/usr/bin/env python3
"""Runs campaigns of seeded random programs, and compares each table with the lines that `jvmx run` gives, a run a job. The
table has to be the same with 1, 3 and 64 workers, and to end with the first job that has a cycle if there is `--stop`. The
exit status has to be 1 exactly if a job of the table has a cycle or isn't Finished. Half of the campaigns choose by
priorities, `--pct D`. The first difference ends the script with an error, which shows the program.

    bench/campaigns.py [--jvmx PROGRAM] [--programs N] [--seed S]

A program is in Jasmin: a class P of threads, and a class Q with a static initialiser. Main starts 2 or 3 threads and joins
some. Their methods, some of them synchronized, read and write fields, take monitors in any order, call one another, spin and
throw. Some jobs deadlock, some come before an instruction that doesn't run, and a small --max ends some early.
"""
import argparse
import random
import re
import shlex
import subprocess
import sys
import tempfile
from collections import Counter
from concurrent.futures import ThreadPoolExecutor
from pathlib import Path

sys.dont_write_bytecode = True
ROOT = Path(__file__).resolve().parent.parent
WORKERS = [1, 3, 64]
STATUSES = ["Finished", "Running", "Deadlocked", "Stalled"]
# The seconds after which a command counts as one that doesn't end.
LIMIT = 300
METHODS = 4
# What `run` writes to standard error.
RUN = re.compile(
    r"(?P<uncaught>(uncaught \d+ \S+\n)*)status (?P<status>\w+) turns (?P<turns>\d+)\n"
    r"(?P<verdict>atomic|cycle at \d+) events (?P<events>\d+) transactions \d+(: \d+( \d+)*)?\n"
)
FIELDS = ["P/a I", "P/b I", "Q/d I"]
# What pushes a thread's object, and what pushes an object of which the monitor is taken: that of synchronized methods too.
OBJECTS = ["getstatic P/first LP;", "getstatic P/last LP;"]
LOCKS = ["getstatic P/left Ljava/lang/Object;", "getstatic P/right Ljava/lang/Object;", "ldc P", *OBJECTS]
HEAD = """.class public P
.super java/lang/Thread
.field static a I
.field static b I = 1
.field c I
.field part I
.field static left Ljava/lang/Object;
.field static right Ljava/lang/Object;
.field static first LP;
.field static last LP;
.method public <init>(I)V
.limit stack 2
.limit locals 2
aload_0
invokenonvirtual java/lang/Thread/<init>()V
aload_0
iload_1
putfield P/part I
return
.end method
.method static go(I)V
iload_0
putstatic P/a I
aconst_null
invokestatic P/main([Ljava/lang/String;)V
return
.end method
"""


class Difference(Exception):
    """What differs, with all that shows it again."""


class Writer:
    """Writes the sources of a random program."""

    def __init__(self, numbers, may_run_for_ever):
        self.numbers, self.may_run_for_ever = numbers, may_run_for_ever
        self.labels = 0
        # Which methods are static.
        self.static = [self.happens(0.5) for _ in range(METHODS)]

    def happens(self, share):
        return self.numbers.random() < share

    def one_of(self, *things):
        return self.numbers.choice(things)

    def label(self):
        self.labels += 1
        return f"L{self.labels}"

    def block(self, lowest, most=3):
        """Returns some statements, whose calls are of methods from a lowest number up."""
        return [line for _ in range(self.numbers.randint(1, most)) for line in self.statement(lowest)]

    def statement(self, lowest):
        frequent = [self.read, self.write, self.count, self.count_in_object, self.copy]
        nested = [self.calls, self.calls, self.calls, self.locked, self.locked, self.chosen]
        return self.one_of(*frequent, *frequent, *nested, self.spin, self.rare)(lowest)

    def read(self, _):
        return [f"getstatic {self.one_of(*FIELDS)}", "pop"]

    def write(self, _):
        return [f"bipush {self.numbers.randrange(3)}", f"putstatic {self.one_of(*FIELDS)}"]

    def count(self, _):
        field = self.one_of(*FIELDS)
        return [f"getstatic {field}", "iconst_1", "iadd", f"putstatic {field}"]

    def count_in_object(self, _):
        return [self.one_of(*OBJECTS), "dup", "getfield P/c I", "iconst_1", "iadd", "putfield P/c I"]

    def copy(self, _):
        return [f"getstatic {self.one_of(*FIELDS)}", f"putstatic {self.one_of(*FIELDS)}"]

    def calls(self, lowest):
        """Returns a call of a later method, so that calls end."""
        if lowest == METHODS:
            return self.count(lowest)
        number = self.numbers.randrange(lowest, METHODS)
        if self.static[number]:
            return [f"invokestatic P/m{number}()V"]
        return [self.one_of(*OBJECTS), f"invokevirtual P/m{number}()V"]

    def locked(self, lowest):
        """Returns statements under a monitor, which is seldom left twice, another's, or not at all."""
        lock = self.one_of(*LOCKS)
        after = [lock, "monitorexit"]
        if self.happens(0.1):
            after = self.one_of([*after, *after], [self.one_of(*LOCKS), "monitorexit"], [])
        return [lock, "monitorenter", *self.block(lowest, 2), *after]

    def chosen(self, lowest):
        end = self.label()
        choice = [f"getstatic {self.one_of(*FIELDS)}", f"{self.one_of('ifeq', 'ifne')} {end}"]
        return [*choice, *self.block(lowest, 2), f"{end}:"]

    def spin(self, _):
        """Returns a loop that waits for another thread's write, some rounds long, or for ever."""
        begin, end = self.label(), self.label()
        wait = [f"{begin}:", f"getstatic {self.one_of(*FIELDS)}", f"{self.one_of('ifeq', 'ifne')} {end}"]
        if self.may_run_for_ever and self.happens(0.3):
            return [*wait, f"goto {begin}", f"{end}:"]
        rounds = self.numbers.randint(2, 6)
        return [f"bipush {rounds}", "istore_1", *wait, "iinc 1 -1", "iload_1", f"ifgt {begin}", f"{end}:"]

    def wait(self, rounds):
        begin = self.label()
        return [f"bipush {rounds}", "istore_1", f"{begin}:", "iinc 1 -1", "iload_1", f"ifgt {begin}"]

    def rare(self, _):
        """Returns what throws, an instruction that doesn't run, or a join; mostly only where a field is 0."""
        thread, end = self.one_of(*OBJECTS), self.label()
        thrown = ["aconst_null", "athrow"], ["iconst_1", "iconst_0", "idiv", "pop"], [thread, "invokevirtual P/start()V"]
        lines = self.one_of(*thrown, ["fconst_0", "pop"], [thread, "invokevirtual P/join()V"])
        return [f"getstatic {self.one_of(*FIELDS)}", f"ifne {end}", *lines, f"{end}:"] if self.happens(0.7) else lines

    def method(self, head, body):
        """Returns a method, which seldom handles what its body throws."""
        lines = [f".method {head}", ".limit stack 4", ".limit locals 6"]
        if not self.happens(0.2):
            return [*lines, *body, "return", ".end method"]
        begin, end, handler = self.label(), self.label(), self.label()
        lines.append(f".catch all from {begin} to {end} using {handler}")
        return [*lines, f"{begin}:", *body, f"{end}:", "return", f"{handler}:", "pop", "return", ".end method"]

    def numbered(self, number):
        words = ["static"] * self.static[number] + ["synchronized"] * self.happens(0.4)
        return self.method(" ".join([*words, f"m{number}()V"]), self.block(number + 1))

    def run(self):
        """Returns the method of threads. Those of even and of odd number do something else."""
        other, end = self.label(), self.label()
        one = ["aload_0", "getfield P/part I", f"ifne {other}", *self.parted(), f"goto {end}"]
        return self.method("public run()V", [*one, f"{other}:", *self.parted(), f"{end}:"])

    def parted(self):
        """Returns statements with waits between them, so that only some jobs have a cycle."""
        parts = [[*self.wait(self.numbers.randint(1, 12)), *self.statement(0)] for _ in range(self.numbers.randint(1, 2))]
        return [line for part in [*parts, self.calls(0)] for line in part]

    def main(self):
        lines = []
        for field in ("left", "right"):
            made = ["new java/lang/Object", "dup", "invokespecial java/lang/Object/<init>()V"]
            lines += [*made, f"putstatic P/{field} Ljava/lang/Object;"]
        threads = range(1, self.numbers.randint(2, 3) + 1)
        for thread in threads:
            lines += ["new P", "dup", f"iconst_{thread % 2}", "invokespecial P/<init>(I)V", f"astore {thread + 1}"]
        lines += ["aload_2", "putstatic P/first LP;", f"aload {threads[-1] + 1}", "putstatic P/last LP;"]
        for thread in threads:
            lines += [f"aload {thread + 1}", "invokevirtual P/start()V"]
        lines += self.block(0, 2) if self.happens(0.5) else []
        for thread in threads:
            lines += [f"aload {thread + 1}", "invokevirtual P/join()V"] if self.happens(0.6) else []
        out = "getstatic java/lang/System/out Ljava/io/PrintStream;"
        lines += [out, "getstatic P/a I", "invokevirtual java/io/PrintStream/println(I)V"]
        return self.method("public static main([Ljava/lang/String;)V", lines)

    def thread_class(self):
        methods = [self.numbered(number) for number in range(METHODS)]
        return HEAD + "".join(f"{line}\n" for method in [*methods, self.run(), self.main()] for line in method)

    def other_class(self):
        initialiser = self.method("static <clinit>()V", self.block(METHODS, 2)) if self.happens(0.7) else []
        return "".join(f"{line}\n" for line in [".class public Q", ".field static d I", *initialiser])

    def specification(self):
        """Returns random lines. Most make whole threads plain: where one is atomic, nearly all jobs have a cycle."""
        methods = [*["m0", "m1", "m2.()V", "m3"] * 4, "run", "run.()V", "main", "*", "<init>"]
        patterns = ["*", "Q.*", *(f"P.{name}" for name in methods)]
        words = ["atomic", "atomic", "atomic", "plain"]
        lines = [f"{self.one_of(*words)} {self.one_of(*patterns)}" for _ in range(self.numbers.randint(1, 6))]
        lines += ["", "# whole threads", "plain P.main", "plain P.go", "plain P.run"] if self.happens(0.8) else []
        return "".join(f"{line}\n" for line in lines)


class Campaign:
    """A random program with its specification, and the words that run it."""

    def __init__(self, jvmx, number, folder):
        numbers = random.Random(number)
        self.jvmx, self.number = jvmx, number
        self.jobs = numbers.choice([0, 1, *[4, 5, 6, 7, 8] * 5])
        self.seed = numbers.choice([0, 2**64 - 1, *(numbers.randrange(2**64) for _ in range(8))])
        small = numbers.random() < 0.25
        most = [f"--max={numbers.choice([numbers.randrange(40), numbers.randrange(300), 3000])}"] if small else []
        writer = Writer(numbers, small)
        files = {"P.j": writer.thread_class(), "Q.j": writer.other_class(), "spec": writer.specification()}
        for name, text in files.items():
            (folder / name).write_text(text)
        static = ["--entry=P.go.(I)V", f"--args={numbers.randrange(-1, 2)}"]
        entry = numbers.choice([["--entry=P"], ["--entry=P"], static])
        self.words = [*entry, *most, f"--spec={folder}/spec", f"{folder}/P.j", f"{folder}/Q.j"]
        # The depth of priorities, or 0 for choices at random.
        self.depth = numbers.choice([0, 0, 0, 0, 1, 2, 3, 64])
        self.shown = "".join(f"{name}:\n{text}" for name, text in files.items())

    def ran(self, command, *options):
        """Runs a command on the program. Returns its exit status and what it wrote to both streams."""
        words = [self.jvmx, command, *options, *self.words]
        try:
            ran = subprocess.run(words, capture_output=True, text=True, timeout=LIMIT)
        except subprocess.TimeoutExpired:
            raise self.difference(words, f"no end in {LIMIT} seconds", "an end") from None
        return words, (ran.returncode, ran.stdout, ran.stderr)

    def difference(self, words, given, wanted):
        again = f"bench/campaigns.py --jvmx {self.jvmx} --programs 1 --seed {self.number}"
        differs = f"{shlex.join(words)}\ngives  {given!r}\nwanted {wanted!r}\nto see it again: {again}"
        return Difference(self.shown + differs)

    def run(self, schedule):
        """Runs the program under a schedule. Returns what `run` wrote to standard error, by parts."""
        words, ended = self.ran("run", f"--sched={schedule}")
        wrote = RUN.fullmatch(ended[2])
        if not wrote or ended[0] not in (0, 1) or wrote["status"] not in STATUSES:
            raise self.difference(words, ended, "a status and a verdict")
        return wrote

    def schedules(self):
        """Lists the schedules of all jobs."""
        if not self.depth:
            return [f"seed:{self.seed}:{job}" for job in range(self.jobs)]
        turns = max(1, int(self.run("stay:")["turns"]))
        return [f"pct:{self.seed}:{job}:{self.depth}:{turns}" for job in range(self.jobs)]

    def compare(self, runs, stop):
        """Compares the tables of all numbers of workers with what runs gave."""
        cycles = [job for job, ran in enumerate(runs) if ran["verdict"] != "atomic"]
        shown = runs[: cycles[0] + 1] if stop and cycles else runs
        count = sum(ran["verdict"] != "atomic" for ran in shown)
        lines = [
            f"job {job} {ran['verdict']} status {ran['status']} turns {ran['turns']} events {ran['events']}\n"
            for job, ran in enumerate(shown)
        ]
        table = "".join([*lines, f"jobs {len(shown)} atomic {len(shown) - count} cycle {count}\n"])
        status = 1 if count or any(ran["status"] != "Finished" for ran in shown) else 0
        depth = [f"--pct={self.depth}"] if self.depth else []
        options = [f"--jobs={self.jobs}", f"--seed={self.seed}", *depth, *["--stop"] * stop]
        for workers in WORKERS:
            words, ended = self.ran("campaign", *options, f"--workers={workers}")
            if ended != (status, table, ""):
                raise self.difference(words, ended, (status, table, ""))


def compared(jvmx, number):
    """Compares the campaigns of a program. Returns counts of what its jobs were."""
    with tempfile.TemporaryDirectory() as folder:
        campaign = Campaign(jvmx, number, Path(folder))
        runs = [campaign.run(schedule) for schedule in campaign.schedules()]
        for stop in (False, True):
            campaign.compare(runs, stop)
    counts = Counter(ran["status"] for ran in runs)
    counts["cycles"] = sum(ran["verdict"] != "atomic" for ran in runs)
    counts["uncaught"] = sum(ran["uncaught"] != "" for ran in runs)
    counts["jobs"], counts["programs"], counts["some"] = len(runs), counts["cycles"] > 0, 0 < counts["cycles"] < len(runs)
    return counts


def main():
    parser = argparse.ArgumentParser(description=__doc__.split("\n\n")[0])
    parser.add_argument("--jvmx", default=str(ROOT / "jvmx"))
    parser.add_argument("--programs", type=int, default=1000)
    parser.add_argument("--seed", type=int, default=1)
    words = parser.parse_args()
    pool, counts = ThreadPoolExecutor(2), Counter()
    try:
        for found in pool.map(lambda number: compared(words.jvmx, words.seed + number), range(words.programs)):
            counts.update(found)
    except Difference as difference:
        sys.exit(str(difference))
    finally:
        # A fault has cancelled the rest.
        pool.shutdown()
    print(f"{words.programs} programs, {counts['jobs']} jobs: all tables are those of runs one at a time")
    cycles = f"{counts['cycles']} jobs with a cycle, of {counts['programs']} programs"
    print(f"{cycles}: not all jobs of {counts['some']}; {counts['uncaught']} jobs with an uncaught exception")
    print(", ".join(f"{counts[status]} {status}" for status in STATUSES))


if __name__ == "__main__":
    main()
