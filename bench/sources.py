#!/usr/bin/env python3
"""Makes sources of unusual size in the folder that is named, each of one class.

    bench/sources.py FOLDER
"""
import sys
from pathlib import Path

MOST = 64 * 1024 * 1024


def method(name, lines):
    return f".method static {name}()V\n.limit locals 300\n{lines}\n.end method\n"


def methods(lines, size):
    """Returns as many methods of these lines as fit in `size` letters, and at most 65,535."""
    text = [".class Source\n"]
    room = size
    for number in range(65535):
        text.append(method(f"m{number}", lines))
        room -= len(text[-1])
        if room < 0:
            break
    return "".join(text)


ROUND = ["L{n}: iload 12", "ifeq L{n}", "iinc 12 -1", "aload 299", "getfield a/B/c I", "invokestatic a/B/f(I)I", "ldc 100000", "iadd"]
ORDINARY = "\n".join("\n".join(ROUND).format(n=n) for n in range(2900)) + "\nreturn"
LABELS = "\n".join(f"L{n}:" for n in range(600000)) + "\n" + "\n".join(f"goto_w L{n * 46}" for n in range(13000))

SOURCES = {
    # Methods of 60,000 nops.
    "Nops": lambda: methods("nop\n" * 60000 + "return", MOST - 300000),
    # Methods of 23,200 instructions of several forms.
    "Ordinary": lambda: methods(ORDINARY, MOST - 400000),
    # 65,535 methods of one instruction.
    "Methods": lambda: methods("return", MOST),
    "Labels": lambda: ".class Source\n" + method("m", LABELS),
    "Line": lambda: ".class Source\n;" + "x" * (MOST - 20),
    "Fields": lambda: ".class Source\n" + "".join(f".field field{n} Ljava/lang/Object;\n" for n in range(65000)),
}

for name, make in SOURCES.items():
    (Path(sys.argv[1]) / f"{name}.j").write_text(make())
