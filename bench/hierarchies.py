#!/usr/bin/env python3
"""Links hierarchies that a search could take for ever on, or recurse too deep on, and says how long each took.

    bench/hierarchies.py [PROGRAM]

PROGRAM is a built jvmx; without it the launcher's is taken. Each command has a second, and has to print what is wanted.
"""
import subprocess
import sys
import tempfile
import time
from pathlib import Path

ROOT = Path(__file__).resolve().parent.parent
LIMIT = 1.0
REFERENCE = ".method static <clinit>()V\ngetstatic I0/nope I\npop\nreturn\n.end method\n"
LOWEST = """.class C
.implements I59999
.method <init>()V
aload_0
invokespecial java/lang/Object/<init>()V
return
.end method
.method static f()I
.limit stack 3
new C
dup
invokespecial C/<init>()V
instanceof I0
new C
dup
invokespecial C/<init>()V
instanceof java/lang/Runnable
ishl
ireturn
getstatic I59999/nope I
.end method
"""


def interface(number, above, method=""):
    """Returns the source of the interface of a number, below these."""
    return f".interface I{number}\n" + "".join(f".implements I{other}\n" for other in above) + method


def circle(count, method):
    """Returns interfaces each above the one before, and the last above the first, each with a method."""
    return {f"I{one}": interface(one, [(one + 1) % count], method) for one in range(count)}


def twice():
    """Returns an interface that is twice its own superinterface."""
    return {"I0": interface(0, [0, 0], REFERENCE)}


def two_ways():
    """Returns a circle that a search enters by two ways, and a class outside it with a reference."""
    files = {f"I{one}": interface(one, [(one + 1) % 3, (one + 2) % 3]) for one in range(3)}
    return files | {"X": f".class X\n{REFERENCE}"}


def diamonds(levels, method):
    """Returns levels of two interfaces, both below both of the level before, each with a method."""
    above = {0: []} | {level: [2 * level - 2, 2 * level - 1] for level in range(1, levels)}
    return {f"I{2 * level + side}": interface(2 * level + side, above[level], method) for level in above for side in (0, 1)}


def chain(count):
    """Returns interfaces each below the one before, and a class below all."""
    files = {f"I{one}": interface(one, [one - 1] if one else []) for one in range(count)}
    return files | {"C": LOWEST}


def wide(interfaces, uses):
    """Returns a class below many interfaces that names a missing field of its own many times."""
    files = {f"I{one}": interface(one, []) for one in range(interfaces)}
    below = "".join(f".implements I{one}\n" for one in range(interfaces))
    code = "getstatic W/nope I\npop\n" * uses
    return files | {"W": f".class W\n{below}.method static f()I\nbipush 7\nireturn\n{code}return\n.end method\n"}


CASES = [
    ("an interface twice below itself", twice(), "I0.f.()V", "K03"),
    ("a circle with two ways in", two_ways(), "X.f.()V", "K03"),
    ("a circle of 1", circle(1, ""), "I0.f.()V", "K03"),
    ("a circle of 2", circle(2, ""), "I0.f.()V", "K03"),
    ("a circle of 37", circle(37, ""), "I0.f.()V", "K03"),
    ("a circle of 1, with references", circle(1, REFERENCE), "I0.f.()V", "K03"),
    ("a circle of 2, with references", circle(2, REFERENCE), "I0.f.()V", "K03"),
    ("a circle of 37, with references", circle(37, REFERENCE), "I0.f.()V", "K03"),
    ("30 levels of diamonds", diamonds(30, ""), "I0.f.()V", "M01"),
    ("30 levels of diamonds, with references", diamonds(30, REFERENCE), "I0.f.()V", "M01"),
    ("4,000 interfaces, 2,000 references", wide(4000, 2000), "W.f.()I", "7"),
    ("a chain of 60,000 interfaces", chain(60_000), "C.f.()I", "1"),
]


def answer(program, files, entry):
    """Returns what `eval` prints of these sources, and the seconds that it took."""
    with tempfile.TemporaryDirectory() as folder:
        for name, text in files.items():
            (Path(folder) / f"{name}.j").write_text(text)
        words = [program, "eval", "--entry", entry] + [f"{name}.j" for name in files]
        start = time.monotonic()
        ran = subprocess.run(words, cwd=folder, capture_output=True, text=True)
        return ran.stdout + ran.stderr, time.monotonic() - start


def main():
    program = str(Path(sys.argv[1]).resolve()) if sys.argv[1:] else str(ROOT / "jvmx")
    wrong = 0
    for title, files, entry, wanted in CASES:
        printed, seconds = answer(program, files, entry)
        is_right = wanted in printed and seconds < LIMIT
        wrong += not is_right
        print(f"{title}: {seconds:.2f} s" + ("" if is_right else f", {printed.strip()[:200]!r} for {wanted!r}"))
    return 1 if wrong else 0


sys.exit(main())
