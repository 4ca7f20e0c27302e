#!/usr/bin/env python3
"""Checks that `jvmx help CODE` prints what docs/REFUSALS.md says: the same codes, each with the same words.

    bench/refusals.py

Line breaks and the marks of Markdown don't count. Prints each code whose texts differ and each line of the program's
texts that has more than 80 columns, and ends with 1 if there is one. The gate runs it.
"""
import re
import sys
from itertools import zip_longest
from pathlib import Path

ROOT = Path(__file__).resolve().parent.parent
PAGE = ROOT / "docs" / "REFUSALS.md"
TABLES = ROOT / "crates" / "command_line" / "src" / "refusals"
# An entry of the page: its head in bold, and its text, whose further lines are indented.
ENTRY = re.compile(r"^- \*\*([A-Z]\d\d [^*]+)\*\*: (.*(?:\n  .*)*)", re.M)
STRING = r'"((?:[^"\\]|\\.)*)"'
# A pair of a table: a code and its text, as Rust writes strings.
PAIR = re.compile(rf"\(\s*{STRING},\s*{STRING},?\s*\)", re.S)
COLUMNS = 80
# How many words are shown from the first that differs.
SHOWN = 6


def code_of(text):
    """Returns the code that a text begins with."""
    return text.split()[0]


def page_texts(page):
    """Returns the head and the text of each entry of the page, without its marks."""
    return [f"{head}\n\n{text}".replace("`", "") for head, text in ENTRY.findall(page)]


def unescaped(literal):
    """Returns the text that a string of Rust means. A backslash at the end of a line skips white space."""
    return re.sub(r"\\(\n\s*|.)", lambda found: "" if found[1].isspace() else found[1], literal)


def program_texts(tables):
    """Returns the pairs of the tables: each code with its text."""
    return [(code, unescaped(literal)) for table in tables for code, literal in PAIR.findall(table)]


def difference(before, after):
    """Returns the words of two texts from the first that differs, or None if all are the same."""
    words = list(zip_longest(before.split(), after.split()))
    place = next((place for place, (one, other) in enumerate(words) if one != other), None)
    if place is None:
        return None
    return [" ".join(filter(None, side)) for side in zip(*words[place:place + SHOWN])]


def repeated(codes):
    """Yields each code that comes again."""
    return (code for place, code in enumerate(codes) if code in codes[:place])


def faults(on_page, in_program):
    """Yields a line for each thing that differs, or is out of its form."""
    page, program = {code_of(text): text for text in on_page}, dict(in_program)
    yield from (f"{code}: docs/REFUSALS.md has it twice" for code in repeated([code_of(text) for text in on_page]))
    yield from (f"{code}: the program has it twice" for code in repeated([code for code, _ in in_program]))
    yield from (f"{code}: the program doesn't have it" for code in page if code not in program)
    yield from (f"{code}: docs/REFUSALS.md doesn't have it" for code in program if code not in page)
    for code in (code for code in page if code in program):
        found = difference(page[code], program[code])
        if found:
            yield f"{code}: docs/REFUSALS.md says '{found[0]}', the program '{found[1]}'"
    for code, text in in_program:
        yield from (f"{code}: a long line: {line}" for line in text.splitlines() if len(line) > COLUMNS)


def main():
    tables = [one.read_text() for one in sorted(TABLES.glob("*.rt"))]
    found = list(faults(page_texts(PAGE.read_text()), program_texts(tables)))
    print(*found, sep="\n", end="\n" if found else "")
    return 1 if found else 0


if __name__ == "__main__":
    sys.exit(main())
