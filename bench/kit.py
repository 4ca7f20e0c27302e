"""Loads the kit's command `rt`, and has it remember what it would else find out again and again.

`rt` asks each crate for the crates below it, and follows each way down to them. In this repository there are millions of ways, so
that `rt ci` takes 20 minutes before it proves, all in `Crate.below`. What is below a crate doesn't change while `rt` runs.
It calls the kit's own code, of rattle-kit-13f: with another kit it may stop.
"""
import importlib.machinery
import importlib.util
import os
import shutil
import sys
from pathlib import Path

KIT = Path(os.path.realpath(shutil.which("rt") or "/opt/rattle/bin/rt")).parent


def remembered(below):
    """Returns `Crate.below` that follows each way once."""

    def call(crate):
        if "found_below" not in vars(crate):
            crate.found_below = below(crate)
        return list(crate.found_below)

    call.__doc__ = below.__doc__
    return call


def load():
    """Returns the module of the command `rt`."""
    sys.path.insert(0, str(KIT))
    loader = importlib.machinery.SourceFileLoader("rt_main", str(KIT / "rt"))
    module = importlib.util.module_from_spec(importlib.util.spec_from_loader("rt_main", loader))
    loader.exec_module(module)
    module.rtlib.Crate.below = remembered(module.rtlib.Crate.below)
    return module
