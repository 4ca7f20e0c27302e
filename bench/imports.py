#!/usr/bin/env python3
"""Checks that each import of a crate's definitions, contracts' types and proofs names a module that exists.

    bench/imports.py

Prints each `use Rattle.CRATE..` line of crates/ whose module has no file, and ends with 1 if there is one. A build without
proof reads no such line, and a gate finds a stale one only when it gets to its crate: run this after a file was renamed.

A crate may pass on another: `pub use Rattle.heap.specs as heap` in its specs/Lib.antt passes on the definitions of heap, and
`pub use heap;` in its src/lib.rt passes on its types.
"""
import re
import sys
from functools import lru_cache
from pathlib import Path

ROOT = Path(__file__).resolve().parent.parent
CRATES = ROOT / "crates"
IMPORT = re.compile(r"^\s*(?:pub |ghost )?use Rattle\.(\w+)\.(specs|proofs)\.([^\s;{]+)", re.MULTILINE)
# Modules that rattle makes for each function.
MADE = {"Goals", "Given", "Met", "Statement", "Code"}


@lru_cache(None)
def passed_on_specs(crate, part, name):
    """Returns the path of what the root of a crate's definitions or proofs passes on under a name, or None."""
    lib = CRATES / crate / part / "Lib.antt"
    if not lib.is_file():
        return None
    text = lib.read_text()
    found = re.search(rf"^pub use (\S+) as {re.escape(name)}$", text, re.MULTILINE)
    found = found or re.search(rf"^pub use (\S+\.{re.escape(name)})$", text, re.MULTILINE)
    return found[1] if found else None


@lru_cache(None)
def passed_on_crate(crate, name):
    """Returns the path of the crate that the root of a crate's code passes on under a name, or None."""
    lib = CRATES / crate / "src/lib.rt"
    if not lib.is_file():
        return None
    for line in re.finditer(r"^pub use ([^;]+);", lib.read_text(), re.MULTILINE):
        head, _, group = line[1].partition("{")
        names = [one.strip() for one in group.rstrip("}").split(",")] if group else [""]
        for one in names:
            path = f"{head}{one}".strip()
            if path.split("::")[-1] == name:
                return path
    return None


def has_module(crate, part, path):
    """Whether an imported module exists."""
    words = [one for one in path.strip(".").split(".") if one]
    if not words or words[0] == "contracts" or MADE.intersection(words):
        return True
    if words[0] == "declared":
        return has_type(crate, words[1:])
    if (CRATES / crate / part / f"{'/'.join(words)}.antt").is_file():
        return True
    on = passed_on_specs(crate, part, words[0])
    found = re.match(r"Rattle\.(\w+)\.(specs|proofs)\.?(.*)", on or "")
    if not found or not (CRATES / found[1]).is_dir():
        return bool(on)
    return has_module(found[1], found[2], ".".join([found[3], *words[1:]]))


def is_exported(crate, name):
    """Whether the root of a crate's code has a public module of a name, or passes on an item of that name."""
    text = (CRATES / crate / "src/lib.rt").read_text()
    return bool(re.search(rf"^pub mod {name};", text, re.MULTILINE) or passed_on_crate(crate, name))


def has_type(crate, words, is_passed_on=False):
    """Whether a module of a crate's code exists, in its files or in those of a crate that it passes on. Of what is passed on only
    what the crate exports is there."""
    if is_passed_on and words and not is_exported(crate, words[0]):
        return False
    files = [one for one in words if not one[0].isupper()]
    if not files or (CRATES / crate / "src" / "/".join(files)).with_suffix(".rt").is_file():
        return True
    on = passed_on_crate(crate, files[0])
    if not on:
        return False
    first, *rest = on.split("::")
    return (CRATES / first).is_dir() and has_type(first, [*rest, *words[1:]], True)


def main():
    wrong = []
    for pattern in ("*/src/**/*.rt", "*/specs/**/*.antt", "*/proofs/**/*.antt"):
        for file in sorted(CRATES.glob(pattern)):
            for line in IMPORT.finditer(file.read_text()):
                if (CRATES / line[1]).is_dir() and not has_module(*line.groups()):
                    wrong.append(f"{file.relative_to(ROOT)}: {line[0].strip()}")
    for line in wrong:
        print(line)
    return 1 if wrong else 0


if __name__ == "__main__":
    sys.exit(main())
