"""Splits the module of a program in two, so that two processors compile it at once.

The second half has the functions of `DOORS` and all that they reach; the first half has all that `main` reaches without
them. A function that both reach is in both. A run calls the doors once or a few times. So each turn is optimised as in
one module: its functions are together.
"""
import re

# Functions that are called seldom, and that much is reached by. One that a program doesn't have is passed over.
DOORS = (
    "atom_spec::spec::Spec::read",
    "clap::builder::command::Command::try_get_matches_from",
    "commands::picturing::picture_of",
    "inputs::input::class_of",
    "linker::linking::link",
    "listing::listing::list",
)
MAIN = "main"

# The name of a function or a variable, and a variable's definition: its name, its type and its alignment.
NAME = re.compile(r'@(?:"([^"]*)"|([\w.$-]+))')
VARIABLE = re.compile(r"^(@\S+ =) private global (.+) zeroinitializer(, align \d+)$", re.MULTILINE)
OTHER_VARIABLE = re.compile(r"^@\S+ = private global ", re.MULTILINE)


def names_in(text):
    """Returns the names of functions and variables in a text of a module."""
    return {quoted or plain for quoted, plain in NAME.findall(text)}


def sections(lines):
    """Yields each function of a module as its name and its text, and what is between two functions as None and a text."""
    name, text = None, []
    for line in lines:
        if line.startswith("define"):
            yield None, "".join(text)
            quoted, plain = NAME.search(line).groups()
            name, text = quoted or plain, []
        text.append(line)
        if name and line.startswith("}"):
            yield name, "".join(text)
            name, text = None, []
    yield None, "".join(text)


def reached(calls, roots, but=()):
    """Returns the functions that these functions reach, themselves among them, without a call of some."""
    found, waiting = set(roots), list(roots)
    while waiting:
        new = calls[waiting.pop()] - found - set(but)
        found |= new
        waiting.extend(new)
    return found


def declaration(text):
    """Returns the declaration of a function that the other half has."""
    head = re.sub(r"\{$", "", text.partition("\n")[0]).replace("define internal", "declare hidden", 1)
    return f"{head}\n"


def first_half(parts, functions, doors):
    """Yields the texts of the first half. Variables of the program are defined here."""
    for name, text in parts:
        if name is None:
            yield VARIABLE.sub(r"\1 hidden global \2 zeroinitializer\3", text)
        elif name in doors:
            yield declaration(text)
        elif name in functions:
            yield text


def second_half(parts, functions, doors):
    """Yields the texts of the second half."""
    for name, text in parts:
        if name is None:
            yield VARIABLE.sub(r"\1 external hidden global \2\3", text)
        elif name in doors:
            yield text.replace("define internal", "define hidden", 1)
        elif name in functions:
            yield text


def halves(lines):
    """Splits a module, and returns the texts of each half; of the whole, where it has no doors or can't be split."""
    parts = list(sections(lines))
    functions = {name for name, _ in parts if name}
    doors = {name for name in functions if name.partition("::<")[0] in DOORS}
    if not doors or any(OTHER_VARIABLE.search(VARIABLE.sub("", text)) for name, text in parts if name is None):
        return [[text for _, text in parts]]
    calls = {name: names_in(text) & functions for name, text in parts if name}
    return [
        first_half(parts, reached(calls, [MAIN], but=doors), doors),
        second_half(parts, reached(calls, doors), doors),
    ]
