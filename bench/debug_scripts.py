#!/usr/bin/env python3
"""Runs seeded scripts of the debugger on the examples with threads, and compares each answer of a session, which goes back
by its checkpoints, with that of a plain session: a new one that goes to the position from the opening, after only those
commands that changed choices or breakpoints.

    bench/debug_scripts.py [--jvmx PROGRAM] [--scripts N] [--seed S]
"""
import argparse
import random
import re
import subprocess
import sys
from pathlib import Path

sys.dont_write_bytecode = True
ROOT = Path(__file__).resolve().parent.parent
THREADS = ROOT / "examples/threads"
PROGRAMS = ["LostUpdate", "Bank", "Buffer", "Philosophers", "Lazy", "DoubleChecked"]
COMMANDS = 12
MOVE = re.compile(r"at (\d+) of (\d+) ")
# A breakpoint is at an instruction of one of these methods.
METHOD = re.compile(r"\.method .*?(\S+)$")


class Run:
    """A program under a schedule."""

    def __init__(self, jvmx, program, seed):
        self.source = THREADS / f"{program}.j"
        self.program = program
        schedule = f"seed:{seed}:{seed % 5 + 1}"
        self.words = [jvmx, "debug", "--sched", schedule, "--max", "400", "--entry", program, str(self.source)]

    def answers(self, script):
        ran = subprocess.run(self.words, input="".join(f"{line}\n" for line in script), capture_output=True, text=True)
        if ran.returncode or ran.stderr:
            sys.exit(f"{self.words} on {script}: {ran}")
        return ran.stdout

    def methods(self):
        return [f"{self.program}.{name}" for name in METHOD.findall(self.source.read_text()) if "<" not in name]


def command_of(numbers, run, turns):
    """A command, drawn at random: moves are frequent."""
    place = f"{numbers.choice(run.methods() or [run.program + '.none()V'])} {numbers.randrange(6)}"
    return numbers.choice([
        f"step {numbers.randrange(30)}", f"back {numbers.randrange(30)}", f"goto {numbers.randrange(turns + 20)}",
        f"goto {numbers.randrange(turns + 20)}", "continue", "rcontinue", f"pick {numbers.randrange(4)}", f"break {place}",
        f"break {place}", f"delete {numbers.randrange(1, 4)}", "threads", f"frames {numbers.randrange(4)}",
        f"object {numbers.randrange(12)}", f"class {run.program}", "trace", "output",
    ])


class Plain:
    """The commands that changed choices or breakpoints, each with its position, and the position now."""

    def __init__(self, run):
        self.run, self.changes, self.position = run, [], 0

    def answer(self, command):
        """The answer of a new session. What leads to the position is answered by a line a command."""
        way = [line for position, change in self.changes for line in (f"goto {position}", change)]
        way.append(f"goto {self.position}")
        answer = "".join(self.run.answers([*way, command]).splitlines(keepends=True)[len(way):])
        if command.split()[0] in ("pick", "break", "delete") and not answer.startswith("fault"):
            self.changes.append((self.position, command))
        if moved := MOVE.match(answer):
            self.position = int(moved[1])
        return answer


def compare(jvmx, number):
    """Compares the answers to one script, and returns how many there were."""
    numbers = random.Random(number)
    run = Run(jvmx, PROGRAMS[number % len(PROGRAMS)], number)
    turns = int(MOVE.match(run.answers(["step 0"]))[2])
    script = [command_of(numbers, run, turns) for _ in range(COMMANDS)]
    plain = Plain(run)
    wanted = "".join(plain.answer(command) for command in script)
    if (given := run.answers(script)) != wanted:
        sys.exit(f"{run.words} on {script}: {given!r}, but a plain session gives {wanted!r}")
    return len(script)


def main():
    parser = argparse.ArgumentParser(description=__doc__.split("\n\n")[0])
    parser.add_argument("--jvmx", default=str(ROOT / "jvmx"))
    parser.add_argument("--scripts", type=int, default=2000)
    parser.add_argument("--seed", type=int, default=1)
    words = parser.parse_args()
    answers = sum(compare(words.jvmx, words.seed + number) for number in range(words.scripts))
    print(f"{words.scripts} scripts, {answers} answers: those of plain sessions")


if __name__ == "__main__":
    main()
