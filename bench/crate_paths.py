#!/usr/bin/env python3
"""Counts the paths down the lines of crates.txt, which `rt ci` follows one by one, some of them several times.

    bench/crate_paths.py [--all]

Prints the number of paths and its limit, and ends with 1 beyond it. With `--all`, also prints the lines' words that other words of the
same line imply, and how many paths fewer there are without each. Such a word can go where the crate names the library through one that
passes it on: docs/CONTRIBUTING.md, 'Add a crate'.
"""
import argparse
import sys
from pathlib import Path

ROOT = Path(__file__).resolve().parent.parent
# rt of rattle-kit-13b follows some 600 paths a second as it stamps libraries, twice each, and some 30,000 where it only lists crates.
LIMIT = 1_000_000


def listed():
    """Returns the crates of this repository that each crate lists, by the crate's name."""
    lines = (line.partition("#")[0].partition(":") for line in (ROOT / "crates.txt").read_text().splitlines())
    words = {head.split()[0]: tail.split() for head, _, tail in lines if head.strip()}
    return {crate: [word for word in found if word in words] for crate, found in words.items()}


def crates_below(crate, below, known):
    """Returns all crates below a crate, and notes them in `known`."""
    if crate not in known:
        known[crate] = set(below[crate]).union(*(crates_below(one, below, known) for one in below[crate]))
    return known[crate]


def paths_from(crate, below, known):
    """Returns the number of paths that begin at a crate, and notes it in `known`."""
    if crate not in known:
        known[crate] = 1 + sum(paths_from(one, below, known) for one in below[crate])
    return known[crate]


def number_of_paths(below):
    """Returns the number of paths that begin at any crate."""
    known = {}
    return sum(paths_from(crate, below, known) for crate in below)


def implied_words(below):
    """Yields each word of a line that another word of the line implies, with the number of paths fewer without it."""
    known, all_paths = {}, number_of_paths(below)
    for crate, words in below.items():
        for word in words:
            rest = [one for one in words if one != word]
            if any(word in crates_below(one, below, known) for one in rest):
                yield all_paths - number_of_paths({**below, crate: rest}), crate, word


def main():
    words = argparse.ArgumentParser()
    words.add_argument("--all", action="store_true")
    below = listed()
    paths = number_of_paths(below)
    print(f"{paths} paths down crates.txt, at most {LIMIT}")
    if words.parse_args().all:
        for fewer, crate, word in sorted(implied_words(below), reverse=True):
            print(f"{fewer:9} fewer without {word} at {crate}")
    return 0 if paths <= LIMIT else 1


if __name__ == "__main__":
    sys.exit(main())
