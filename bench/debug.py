#!/usr/bin/env python3
"""Measures `jvmx debug` on runs of 10,000,000 turns of bench/java's Locks and Objects, and of 33,554,431 turns of List: a
linked list of 900,000 objects, then a loop. Prints for each:

- seconds of whole commands, the least of some: `run`, `run` with a specification that matches nothing (it keeps the items
  and judges them), `trace` to /dev/null, a session without a command, and one that goes to the end
- milliseconds of a command in a session that has been at the end, from random positions: the middle and the worst. Beside
  it the middle of replays from the start: `run --max P` for such positions P, less `run --max 0`
- MiB of the session, and of a checkpoint

    bench/debug.py [--jvmx PROGRAM] [--times N] [--commands N] [NAME...]

All times are those of a processor. ecj compiles the programs in Java, to class files of version 49. List takes 5 GiB. MiB
below 20 of a whole command may be those of this script, which starts it.
"""
import argparse
import os
import random
import re
import statistics
import subprocess
import sys
import tempfile
import time
from pathlib import Path
from typing import NamedTuple

sys.dont_write_bytecode = True
sys.path.insert(0, str(Path(__file__).resolve().parent))
import java_examples  # noqa: E402

HERE = Path(__file__).resolve().parent
# The seed of the positions, and how many of these are also reached from the start.
SEED, PEERS = 1, 20
# The bytes of an item. A session keeps all items up to the greatest position.
ITEM = 40
LIST = """.class List
.field next LList;
.method public static main([Ljava/lang/String;)V
.limit stack 3
.limit locals 2
aconst_null
astore_0
ldc 900000
istore_1
build:
new List
dup
aload_0
putfield List/next LList;
astore_0
iinc 1 -1
iload_1
ifne build
spin:
iinc 1 1
goto spin
.end method
"""


class Program(NamedTuple):
    """A program, how it is run, where breakpoints are hit seldom and often, and how many commands of a kind are timed."""

    name: str
    schedule: str
    turns: int
    seldom: str
    often: str
    commands: int = 100


# In Locks and List the first instruction is hit at the begin alone. In Objects it is every 3,700,000 turns.
PROGRAMS = [
    Program("Locks", "rr:1", 10_000_000, "Locks.run.()V 0", "Locks.run.()V 6"),
    Program("Locks", "rr:1000", 10_000_000, "Locks.run.()V 0", "Locks.run.()V 6"),
    Program("Objects", "rr:1", 10_000_000, "Objects.list.(I)I 0", "Objects$Tree.add.(I)V 0"),
    Program("List", "rr:1", 2**25 - 1, "List.main.([Ljava/lang/String;)V 0", "List.main.([Ljava/lang/String;)V 12", 10),
]


def compiled(folder):
    """Compiles the programs into a folder. Locks has twice its rounds, so that it takes all turns."""
    boot = java_examples.stubs(folder)
    locks = folder / "Locks.java"
    locks.write_text((HERE / "java" / "Locks.java").read_text().replace("ROUNDS = 200000", "ROUNDS = 400000"))
    java_examples.ecj([locks, HERE / "java" / "Objects.java"], folder / "classes", 49, boot)
    (folder / "classes" / "List.j").write_text(LIST)
    (folder / "none.spec").write_text("atomic Nobody.calls\n")
    return folder


def command(words, folder, program, name, *options, turns=None):
    """Returns the words of a command on a program."""
    files = sorted(path for path in (folder / "classes").iterdir() if path.stem.split("$")[0] == program.name)
    run = [f"--sched={program.schedule}", f"--max={program.turns if turns is None else turns}"]
    return [words.jvmx, name, *run, *options, "--entry", program.name, *files]


def used_by(words, script=""):
    """Runs a command on a script of one line. Returns its seconds of a processor, and the most MiB that it held."""
    child = subprocess.Popen(words, stdin=subprocess.PIPE, stdout=subprocess.DEVNULL, stderr=subprocess.DEVNULL)
    child.stdin.write(script.encode())
    child.stdin.close()
    _, status, used = os.wait4(child.pid, 0)
    child.returncode = os.waitstatus_to_exitcode(status)
    if child.returncode not in (0, 1):
        sys.exit(f"{' '.join(map(str, words))} ended with {child.returncode}")
    return used.ru_utime + used.ru_stime, used.ru_maxrss / 1024


class Session:
    """A session of the debugger, driven through pipes: each answer is written before the next line is read."""

    def __init__(self, words):
        pipes = {"stdin": subprocess.PIPE, "stdout": subprocess.PIPE, "stderr": subprocess.DEVNULL}
        self.child = subprocess.Popen(words, text=True, **pipes)

        self.system = Path(f"/proc/{self.child.pid}")

    def processor(self):
        """Returns the seconds of a processor that the session took, once it waits for a line."""
        while self.status("State") != "S":
            time.sleep(0.0001)
        return int((self.system / "schedstat").read_text().split()[0]) / 1e9

    def ask(self, line):
        """Returns the answer to a line, and the seconds of a processor that it took."""
        begin = self.processor()
        self.child.stdin.write(line + "\n")
        self.child.stdin.flush()
        answer = self.child.stdout.readline()
        if not answer or answer.startswith("fault"):
            sys.exit(f"{line}: {answer.strip() or 'the session ended'}")
        return answer, self.processor() - begin

    def status(self, name):
        """Returns what the system says of the session under a name."""
        return re.search(rf"(?m)^{name}:\s*(\w+)", (self.system / "status").read_text()).group(1)

    def memory(self, name):
        """Returns the memory of the session in MiB: VmRSS as it is, VmHWM at most so far."""
        return int(self.status(name)) / 1024


def spacing(far):
    """Returns the distance of checkpoints, at most 64, in a session that has been at a position."""
    return 2 ** (far // 64).bit_length()


def whole_commands(words, folder, program):
    """Prints what whole commands take, and returns the seconds of `run`."""
    lines = {name: command(words, folder, program, name.split()[0]) for name in ("run", "trace", "debug", "debug goto")}
    lines["run --spec"] = command(words, folder, program, "run", "--spec", folder / "none.spec")
    least, most = dict.fromkeys(lines, float("inf")), {}
    for _ in range(words.times):
        for name, line in lines.items():
            took, most[name] = used_by(line, f"goto {program.turns}\n" if name == "debug goto" else "")
            least[name] = min(least[name], took)
    print("whole command  seconds of run of trace     MiB")
    for name, took in least.items():
        ratios = f"{took / least['run']:6.2f} {took / least['trace']:8.2f}"
        print(f"{name:12s} {took:9.3f} {ratios} {most[name]:7.0f}", flush=True)
    return least["run"]


def item_count(line):
    """Returns the number of lines that a command prints."""
    return subprocess.run(line, capture_output=True).stdout.count(b"\n")


def moves(session, places, after):
    """Returns the seconds of a command at each of these positions."""
    found = []
    for place in places:
        session.ask(f"goto {place}")
        found.append(session.ask(after(place))[1])
    return found


def hits(session, places, which):
    """Returns the seconds of `rcontinue` with a breakpoint, at each of these positions."""
    number = session.ask(f"break {which}")[0].split()[1]
    found = moves(session, places, lambda _: "rcontinue")
    session.ask(f"delete {number}")
    return found


def from_start(words, folder, program, places):
    """Returns the seconds in which `run` takes the turns before each position."""
    empty = min(used_by(command(words, folder, program, "run", turns=0))[0] for _ in range(5))
    return [used_by(command(words, folder, program, "run", turns=place))[0] - empty for place in places]


def commands(words, folder, program, session):
    """Prints what commands take in a session."""
    numbers = random.Random(SEED)
    places = [numbers.randint(1, program.turns) for _ in range(min(words.commands, program.commands))]
    found = {
        "step 1": moves(session, places, lambda _: "step 1"),
        "back 1": moves(session, places, lambda _: "back 1"),
        "back N": moves(session, places, lambda place: f"back {numbers.randint(1, place)}"),
        "goto N": [session.ask(f"goto {place}")[1] for place in places],
        "rcontinue, hit often": hits(session, places, program.often),
        "rcontinue, hit seldom": hits(session, places, program.seldom),
    }
    peer = statistics.median(from_start(words, folder, program, places[:PEERS]))
    print("command               middle ms  worst ms  from start  times faster")
    for name, seconds in found.items():
        middle, worst = statistics.median(seconds), max(seconds)
        print(f"{name:21s} {middle * 1e3:9.2f} {worst * 1e3:9.2f} {peer * 1e3:11.2f} {peer / middle:13.1f}", flush=True)


def measure(words, folder, program):
    """Prints all that is measured of a program."""
    print(f"{program.name}, {program.schedule}, {program.turns} turns", flush=True)
    run = whole_commands(words, folder, program)
    session = Session(command(words, folder, program, "debug"))
    session.ask("step 0")
    opened = session.memory("VmRSS")
    session.ask(f"goto {program.turns}")
    end, most = session.memory("VmRSS"), session.memory("VmHWM")
    commands(words, folder, program, session)
    last = session.memory("VmHWM")
    session.child.communicate()
    distance, items = spacing(program.turns), item_count(command(words, folder, program, "trace")) * ITEM / 2**20
    count = program.turns // distance + 1
    print(f"{distance} turns between checkpoints: run takes them in {run * 1e3 * distance / program.turns:.2f} ms")
    print(f"MiB: {opened:.0f} opened, {end:.0f} at the end, {most:.0f} at most on the way, {last:.0f} at most in all")
    print(f"MiB: {items:.0f} of items, {count} checkpoints of at most {(end - opened - items) / count:.2f}\n", flush=True)


def main():
    parser = argparse.ArgumentParser(description=__doc__.split("\n")[0])
    parser.add_argument("--jvmx", default=HERE.parent / "jvmx", help="the program; else the one of this folder")
    parser.add_argument("--times", default=3, type=int, help="how often each whole command is timed")
    parser.add_argument("--commands", default=100, type=int, help="the most commands of a kind that are timed")
    parser.add_argument("names", nargs="*", metavar="NAME", help="these programs; else all")
    words = parser.parse_args()
    with tempfile.TemporaryDirectory() as name:
        folder = compiled(Path(name))
        for program in PROGRAMS:
            if not words.names or program.name in words.names:
                measure(words, folder, program)


if __name__ == "__main__":
    main()
