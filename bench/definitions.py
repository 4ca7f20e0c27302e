#!/usr/bin/env python3
"""Checks that each name in docs/DEFINITIONS.md exists in the tree: definitions, functions, types, files and tests.

    bench/definitions.py

Prints each name that doesn't exist, with its line of the document, and ends with 1 if there is one. The gate runs it.
The head of docs/DEFINITIONS.md says how the names are written. Checks too that docs/PROOFS.md and docs/ARCHITECTURE.md
have each crate, that each entry of PROOFS.md is a crate's, that the wrong bodies and the laws that it names exist, and
that it names each must-fail edit of the gate.
"""
import re
import sys
from functools import lru_cache
from pathlib import Path

ROOT = Path(__file__).resolve().parent.parent
CRATES = {one.name for one in (ROOT / "crates").iterdir() if one.is_dir()}
TEXT = ROOT / "docs" / "DEFINITIONS.md"
NAMED = re.compile(r"[A-Za-z_]\w*")
DEFINED = r"^\s*(?:unfoldable |abbrev |data |record |type |pub |module )*{}\b"
DECLARED = r"\b(?:fn|struct|enum|trait|mod|const|type|union) {}\b|\bpub use [^;]*\b{}\b"


@lru_cache(maxsize=None)
def text_of(crate, folder, suffix):
    """Returns all files of one kind of a crate, joined."""
    return "\n".join(one.read_text() for one in sorted((ROOT / "crates" / crate / folder).rglob(f"*{suffix}")))


@lru_cache(maxsize=None)
def stems(crate, folder, suffix):
    """Returns the names of a crate's files of one kind, without their endings."""
    return {one.stem for one in (ROOT / "crates" / crate / folder).rglob(f"*{suffix}")}


@lru_cache(maxsize=None)
def case_files(name):
    """Returns the files of cases of a name."""
    return [one for one in (ROOT / "crates").glob(f"*/data/{name}")]


def is_defined(crate, name, file=None):
    """Returns whether a definition is in the specs of a crate, or in one file of them."""
    path = ROOT / "crates" / crate / "specs" / f"{file}.antt"
    text = path.read_text() if file else text_of(crate, "specs", ".antt")
    return re.search(DEFINED.format(name), text, re.M) is not None


def is_in_code(crate, name):
    """Returns whether a function, a type or a file of a crate's sources has a name."""
    if name in stems(crate, "src", ".rt") or (ROOT / "crates" / crate / "src" / name).is_dir():
        return True
    return re.search(DECLARED.format(name, name), text_of(crate, "src", ".rt")) is not None


def is_name(word):
    """Returns whether a word of a sentence is a name of the code: it has an underscore or a capital within it."""
    return "_" in word or re.search(r"[a-z][A-Z]", word) is not None


def names_of(piece):
    """Returns the names in a piece: itself if it is one, else those among its words."""
    if NAMED.fullmatch(piece):
        return [piece]
    return [word for word in NAMED.findall(piece) if is_name(word) and word not in CRATES]


def crate_with_file(file, crate):
    """Returns the crate whose specs have a file: the given one if it has it, else any, or None."""
    if crate and file in stems(crate, "specs", ".antt"):
        return crate
    return next((one for one in sorted(CRATES) if file in stems(one, "specs", ".antt")), None)


def law_faults(part):
    """Yields what is missing of a part that speaks of laws."""
    for name in names_of(part.replace("in soundness.rt", "").replace("in laws.rt", "")):
        if not any(is_in_code(crate, name) for crate in CRATES):
            yield name


def shared_type_faults(file, names):
    """Yields the types that no source file of a name declares."""
    texts = [one.read_text() for one in (ROOT / "crates").glob(f"*/src/{file}")]
    for name in names:
        if not any(re.search(DECLARED.format(name, name), text) for text in texts):
            yield f"{file}: {name}"


def head_of(part, crate):
    """Splits a part of a definition's cell into its crate, its files and its names."""
    named = re.match(r"(\w+?)(?:'s|'|:) (?=[A-Z])", part)
    if named and named[1] in CRATES:
        crate, part = named[1], part[named.end():]
    files, _, names = part.partition(": ")
    return crate, files.split(", "), names.split(", ") if names else []


def definition_faults(cell, crate):
    """Yields what is missing of a cell of definitions."""
    home = crate
    for part in filter(None, cell.split("; ")):
        if re.match(r"(the )?laws?\b|clauses\b", part):
            yield from law_faults(part)
            continue
        home, files, names = head_of(part, home)
        if files[0].endswith(".rt"):
            yield from shared_type_faults(files[0], names)
            continue
        for file in files:
            file = file.partition(" ")[0].rstrip(",")
            owner = crate_with_file(file, home)
            if owner is None:
                yield file
            elif file == files[-1].partition(" ")[0]:
                listed = [name for piece in names for name in names_of(piece)]
                within = file if len(files) == 1 else None
                yield from (f"{file}: {name}" for name in listed if not is_defined(owner, name, within))


def code_faults(cell):
    """Yields what is missing of a cell of code."""
    crate = None
    for piece in re.split(r"[;,] ", cell):
        paths = re.findall(r"\w+(?:::\w+)+", piece)
        for path in paths:
            first, *rest = path.split("::")
            crate = first if first in CRATES else crate
            names = rest if first in CRATES else [first, *rest]
            yield from (path for name in names if crate is None or not is_in_code(crate, name))
        alone = [] if paths else [piece] if piece in CRATES else names_of(piece)
        for name in alone:
            if name not in CRATES and (crate is None or not is_in_code(crate, name)):
                yield name
            crate = name if name in CRATES else crate


def has_title(name, title):
    """Returns whether a case of a file of cases has a title."""
    return any(f"== {title}\n" in one.read_text() + "\n" for one in case_files(name))


def edit_faults(crate, name):
    """Yields a must-fail edit that is neither the gate's nor in bench/edits."""
    folders = (ROOT / "crates" / crate / "must-fail", ROOT / "bench" / "edits" / crate)
    if not any((one / f"{name}.edit").exists() for one in folders):
        yield f"{crate}/{name}"


def test_part_faults(part):
    """Yields what is missing of one part of a cell of tests."""
    cases = re.fullmatch(r'(\w+\.cases)(?: of (\w+))?(?:, "(.*)")?', part)
    functions = re.fullmatch(r"(\w+): (\w+(?:, \w+)*)", part)
    if cases:
        name, crate, title = cases.groups()
        files = case_files(name)
        if not files or (crate and not any(one.parts[-3] == crate for one in files)):
            yield part
        elif title and not has_title(name, title):
            yield part
    elif functions and functions[1] in CRATES:
        yield from (one for one in functions[2].split(", ") if not is_in_code(functions[1], one))
    elif "/" in part:
        yield from edit_faults(*part.split("/", 1))
    elif part not in CRATES | {"none", "none: it is proved"}:
        yield part


def row_faults(cells, crate, is_rule):
    """Yields what is missing of a line of a table."""
    definition, code, tests = cells[2:5] if is_rule else cells[1:4]
    yield from definition_faults(definition.replace("`", ""), crate)
    yield from code_faults(code.replace("`", ""))
    for part in re.split(r'; (?=(?:[^"]*"[^"]*")*[^"]*$)', tests):
        yield from test_part_faults(part)


def document_faults(lines):
    """Yields each name that doesn't exist, with the number of its line."""
    crate, is_rule = None, True
    for number, line in enumerate(lines, 1):
        if line.startswith("## "):
            named = re.search(r"`(\w+)`", line)
            crate, is_rule = named[1] if named else None, "Refusals" not in line
            crate = crate if is_rule else "jvms_file"
        cells = [one.strip() for one in line.strip().strip("|").split("|")]
        if line.startswith("| ") and cells[0] not in ("Rule", "Refusal"):
            yield from ((number, one) for one in row_faults(cells, crate, is_rule))


def entry_faults(line):
    """Yields the names in the heading of an entry of PROOFS.md that are no crates."""
    named = line[len("### "):].partition(" (")[0].split(", ")
    yield from (one for one in named if NAMED.fullmatch(one) and one not in CRATES)


def proof_faults(lines):
    """Yields each crate, wrong body and law of PROOFS.md that doesn't exist, with the number of its line."""
    for number, line in enumerate(lines, 1):
        if line.startswith("### "):
            yield from ((number, one) for one in entry_faults(line))
        for crate, name in re.findall(r"`(\w+)/(\w+)`", line):
            if crate in CRATES:
                yield from ((number, one) for one in edit_faults(crate, name))
        for name in re.findall(r"\(`(\w+)`\)", line):
            if not any(is_in_code(crate, name) for crate in CRATES):
                yield number, name


def unnamed_edits(text):
    """Returns the must-fail edits of the gate that a page doesn't name."""
    edits = sorted((ROOT / "crates").glob("*/must-fail/*.edit"))
    names = [f"{edit.parent.parent.name}/{edit.stem}" for edit in edits]
    return [name for name in names if f"`{name}`" not in text]


def left_out(text):
    """Returns the crates that a page doesn't name, in code or in a heading of its own."""
    return [one for one in sorted(CRATES) if not re.search(rf"`{one}`|^### .*\b{one}\b", text, re.M)]


def main():
    named = (ROOT / "docs" / "PROOFS.md").read_text()
    faults = [(TEXT.name, *one) for one in document_faults(TEXT.read_text().splitlines())]
    faults += [("PROOFS.md", *one) for one in proof_faults(named.splitlines())]
    for page, number, name in faults:
        print(f"docs/{page}:{number}: {name} isn't there")
    pages = {"PROOFS.md": named, "ARCHITECTURE.md": (ROOT / "docs" / "ARCHITECTURE.md").read_text()}
    missing = [(page, one) for page, text in pages.items() for one in left_out(text)]
    for page, name in missing:
        print(f"docs/{page}: the crate {name} isn't named")
    unnamed = unnamed_edits(named)
    for name in unnamed:
        print(f"docs/PROOFS.md: the edit {name} isn't named")
    return 1 if faults or missing or unnamed else 0


if __name__ == "__main__":
    sys.exit(main())
