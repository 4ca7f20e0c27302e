#!/usr/bin/env python3
"""Gives this checkout the libraries that `rt ci` kept on this machine, so that `rt check` of a crate high up begins at once,
where it would else prove all crates below. Run it again after each `rt ci`. It counts for nothing at the gate.

    bench/kept.py [CHECKOUT]
"""
import os
import shutil
import sys
from pathlib import Path

sys.dont_write_bytecode = True
import kit  # noqa: E402


def loaded():
    """Returns the module of `rt`."""
    rt = kit.load()
    # A library that is linked to what is kept could be changed there.
    rt.link_or_copy = shutil.copyfile
    return rt


def give(rt, kept, crate):
    """Returns whether the crate's library is there, and takes it from what was kept where it isn't."""
    stamp = Path(crate.folder, "out/rlib/stamp")
    if os.path.isdir(crate.rlib) and stamp.is_file() and stamp.read_text() == crate.stamp():
        kept.is_built(crate)
        return True
    os.makedirs(Path(crate.folder, "out"), exist_ok=True)
    if not kept.give(crate, False, kept.key(crate)):
        return False
    kept.is_built(crate)
    stamp.write_text(crate.stamp())
    print(crate.name)
    return True


def main():
    root = os.path.realpath(sys.argv[1] if len(sys.argv) > 1 else ".")
    os.chdir(root)
    rt = loaded()
    rt.Crate.allowed = rt.handles_of(root)
    crates = rt.crates_of(root)
    kept, there = rt.Kept(crates), set()
    for crate in crates:
        if not crate.is_program and all(below.name in there for below in crate.below()) and give(rt, kept, crate):
            there.add(crate.name)


if __name__ == "__main__":
    main()
