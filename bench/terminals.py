#!/usr/bin/env python3
"""Tries what `jvmx` shows at a terminal of names with control characters, and that a pipe gets the bytes as they are.

    bench/terminals.py [--jvmx PROGRAM] [NAME...]

At a terminal each control character of a FILE's name, of an option's word and of a class's name is shown as `\\u` and four
hexadecimal digits. The line ends of the form itself stay. NAMEs are cases. The exit status is 1 if something differs.
"""
import argparse
import os
import re
import subprocess
import sys
import tempfile
import threading
import tty
from pathlib import Path
from typing import NamedTuple

sys.dont_write_bytecode = True
ROOT = Path(__file__).resolve().parent.parent
sys.path.insert(0, str(ROOT))
import launcher  # noqa: E402

# The program that `rt ci` leaves.
PROVED = ROOT / "crates" / "jvmx" / "out" / "jvmx"
# Seconds that a command may take.
LIMIT = 60
CONTROL = re.compile("[\x00-\x1f\x7f-\x9f]")
# Text with control characters at its ends and among letters: a colour, a bell, a line end, a delete, and two of C1.
NAME = "\x1b[31mred\x07\x7f\x85\nÄ€😀\x9b2J\t\r\\end"
# Such a text that a source can spell as a name.
CLASS = "A\x1b1m\x07\x7f\x9b2JÄ😀"
LOOP = ".class public Loop\n.super java/lang/Object\n.method public static m()V\nreturn\n.end method\n"
# Control-D, which ends the input at a terminal.
END_OF_INPUT = "\x04"
HELPS = "jvmx help debug lists the commands."


class Ran(NamedTuple):
    """How a command ended, and what it wrote."""

    status: int
    out: str
    err: str


def shown(text):
    """Returns a text as a terminal shows it on one line."""
    return CONTROL.sub(lambda found: f"\\u{ord(found[0]):04x}", text)


def shown_lines(text):
    """Returns lines as a terminal shows them."""
    return "\n".join(shown(line) for line in text.split("\n"))


def read_all(device, parts):
    """Reads a device until nobody writes to it."""
    while True:
        try:
            part = os.read(device, 4096)
        except OSError:
            # A terminal ends so.
            return
        if not part:
            return
        parts.append(part)


class Commands:
    """Runs commands of one program in a folder."""

    def __init__(self, jvmx, folder):
        self.jvmx, self.folder = jvmx, folder

    def run(self, words, terminals=(), script=None):
        """Runs a command. Of standard input, output and error those in `terminals` (0, 1, 2) are terminals."""
        ends = {}
        for device in (1, 2):
            ends[device] = os.openpty() if device in terminals else os.pipe()
            if device in terminals:
                # So that a terminal adds no carriage returns.
                tty.setraw(ends[device][1])
        if 0 in terminals:
            ends[0] = os.openpty()
        return self.ended(words, ends, 0 in terminals, script)

    def ended(self, words, ends, is_typed, script):
        """Runs a command with these ends of its devices until it has ended."""
        process = subprocess.Popen(
            [self.jvmx, *words], cwd=self.folder, stdin=ends[0][1] if is_typed else subprocess.PIPE, stdout=ends[1][1],
            stderr=ends[2][1]
        )
        written = {1: [], 2: []}
        readers = [threading.Thread(target=read_all, args=(ends[device][0], written[device])) for device in written]
        for device in ends:
            os.close(ends[device][1])
        for reader in readers:
            reader.start()
        if is_typed:
            os.write(ends[0][0], (script or "").encode())
        else:
            process.communicate((script or "").encode(), timeout=LIMIT)
        status = process.wait(LIMIT)
        for reader in readers:
            reader.join(LIMIT)
        for device in ends:
            os.close(ends[device][0])
        out, err = (b"".join(written[device]).decode() for device in (1, 2))
        return Ran(status, out, err)


def is_refused(jvmx, words, line, more=""):
    """Returns whether words are refused in this line: as it is to a pipe, shown to a terminal, with `more` after it."""
    piped, typed = jvmx.run(words, terminals=[1]), jvmx.run(words, terminals=[2])
    is_raw = piped == Ran(piped.status, "", f"jvmx: {line}\n")
    return is_raw and typed == Ran(piped.status, "", f"jvmx: {shown(line)}\n{more}") and piped.status in (2, 3)


def a_file(jvmx):
    """a FILE that isn't there"""
    return all(is_refused(jvmx, [*words, NAME], f"{NAME}: P02 File") for words in (["list"], ["needs"], ["tables"]))


def a_file_with_a_fault(jvmx):
    """a FILE that is no class, and one that is no source"""
    (jvmx.folder / NAME).write_bytes(b"\xca\xfe")
    (jvmx.folder / f"{NAME}.j").write_text("nonsense\n")
    is_class = is_refused(jvmx, ["list", NAME], f"{NAME}: C01 Truncated at 2")
    return is_class and is_refused(jvmx, ["list", f"{NAME}.j"], f"{NAME}.j: J03 UnknownInstruction line 1")


def an_output(jvmx):
    """an OUT of asm in a folder that isn't there"""
    (jvmx.folder / "Loop.j").write_text(LOOP)
    return is_refused(jvmx, ["asm", "Loop.j", f"none/{NAME}"], f"none/{NAME}: P02 File")


def a_schedule(jvmx):
    """a schedule that is none, and a file of one that isn't there"""
    (jvmx.folder / "Loop.j").write_text(LOOP)
    words = ["run", "--entry", "Loop.m.()V", "Loop.j", "--sched"]
    is_word = is_refused(jvmx, [*words, NAME], f"{NAME}: H01 Syntax")
    return is_word and is_refused(jvmx, [*words, f"@{NAME}"], f"{NAME}: P02 File")


def an_entry(jvmx):
    """an entry that the program doesn't have"""
    (jvmx.folder / "Loop.j").write_text(LOOP)
    entry = "Loop.\\u001b.()V"
    return is_refused(jvmx, ["run", "--entry", entry, "Loop.j"], f"{entry}: M01 NoEntry")


def a_malformed_entry(jvmx):
    """an entry with control characters, which spells none"""
    wanted = "a class, a name and a descriptor, as the class file has them"
    entry = "C.\x1bm\n.()V"
    more = f"--entry {shown(entry)}: {wanted}\n"
    return is_refused(jvmx, ["run", "--entry", entry, "C.j"], "P04 Words", more)


def a_number(jvmx):
    """a number that is none"""
    more = f"--max {shown(NAME)}: decimal digits, below 18446744073709551616\n"
    return is_refused(jvmx, ["run", "--entry", "C", "--max", NAME, "C.j"], "P04 Words", more)


def an_option(jvmx):
    """an option that there isn't"""
    more = f"unexpected argument '--x{shown(NAME)}' found\n"
    return is_refused(jvmx, ["run", "--entry", "C", f"--x{NAME}", "C.j"], "P04 Words", more)


def a_command(jvmx):
    """a command that there isn't"""
    more = f"unrecognized subcommand '{shown(NAME)}'\n"
    return is_refused(jvmx, [NAME], "P04 Words", more)


def lines_of_the_parser(jvmx):
    """the lines of a refusal that has some"""
    more = "the following required arguments were not provided:\n  <files>...\n"
    return is_refused(jvmx, ["run", "--entry", NAME], "P04 Words", more)


def a_text_of_help(jvmx):
    """what `help P04 -- WORDS` prints"""
    words = ["help", "P04", "--", "run", "--entry", "C", "--max", NAME, "C.j"]
    wanted = "decimal digits, below 18446744073709551616\n"
    piped, typed = jvmx.run(words), jvmx.run(words, terminals=[1])
    return piped == Ran(0, f"--max {NAME}: {wanted}", "") and typed == Ran(0, f"--max {shown(NAME)}: {wanted}", "")


def a_listing(jvmx):
    """the listing of a class with control characters in its names"""
    source = f'.class public {CLASS}\n.super java/lang/Object\n.field static {CLASS} I\n.method public static {CLASS}()V\n'
    source += '.limit stack 1\nldc "a\\tb\\n"\npop\nreturn\n.end method\n'
    (jvmx.folder / "A.j").write_text(source)
    if jvmx.run(["asm", "A.j", "A.class"]) != Ran(0, "", ""):
        return False
    piped, typed = jvmx.run(["list", "A.class"], terminals=[2]), jvmx.run(["list", "A.class"], terminals=[1])
    has_names = piped.out.count(CLASS) == 3 and piped.out.count("\n") == source.count("\n") + 2
    return piped.status == 0 and has_names and typed == Ran(0, shown_lines(piped.out), "") and typed.out != piped.out


def a_session(jvmx):
    """the first line of a session of the debugger, whose schedule is in a file"""
    (jvmx.folder / "Loop.j").write_text(LOOP)
    (jvmx.folder / NAME).write_text("rr:1\n")
    words = ["debug", "--entry", "Loop.m.()V", "--sched", f"@{NAME}", "Loop.j"]
    ran = jvmx.run(words, terminals=[0, 2], script=END_OF_INPUT)
    return ran.status == 0 and ran.err.startswith(f"4 turns by schedule {shown('@' + NAME)}. {HELPS}")


def a_summary(jvmx):
    """the commands of a campaign's summary, which bash reads as the words that they were"""
    file, spec = f"it's {NAME}.j", f"\x1b'{NAME}"
    (jvmx.folder / file).write_text(LOOP.replace("return", "here:\ngoto here"))
    (jvmx.folder / spec).write_text("atomic *\n")
    words = ["campaign", "--entry", "Loop.m.()V", "--spec", spec, "--jobs", "1", "--max", "5", "--summary", file]
    piped, typed = jvmx.run(words), jvmx.run(words, terminals=[2])
    again = [command_in(jvmx, ran.err, "jvmx run") for ran in (piped, typed)]
    run = ["run", "--entry", "Loop.m.()V", "--sched", "seed:0:0", "--max", "5", "--spec", spec, file]
    # The progress that a terminal shows begins its lines anew by itself.
    line = next(line for line in typed.err.split("\n") if line.startswith("  jvmx run"))
    return piped.status == typed.status == 1 and again == [run, run] and not CONTROL.search(line) and NAME in piped.err


def command_in(jvmx, summary, command):
    """Returns the words of the first such command in a summary, as bash reads them."""
    text = summary[summary.index(f"  {command}") + len("  jvmx "):summary.index("\n  jvmx debug")]
    ran = subprocess.run(["bash", "-c", f"printf '%s\\0' {text}"], cwd=jvmx.folder, stdout=subprocess.PIPE, check=True)
    return ran.stdout.decode().split("\0")[:-1]


CASES = [
    a_file, a_file_with_a_fault, an_output, a_schedule, an_entry, a_malformed_entry, a_number, an_option, a_command,
    lines_of_the_parser, a_text_of_help, a_listing, a_session, a_summary,
]


def try_case(jvmx, case):
    """Tries a case in a folder of its own, and prints what differs. Returns whether it is right."""
    with tempfile.TemporaryDirectory() as folder:
        try:
            is_right = case(Commands(jvmx, Path(folder)))
        except (OSError, ValueError, subprocess.SubprocessError) as error:
            print(error)
            is_right = False
    if not is_right:
        print(f"{case.__doc__}: wrong ({case.__name__})")
    return is_right


def main():
    """Tries the cases."""
    parser = argparse.ArgumentParser(description=__doc__, formatter_class=argparse.RawDescriptionHelpFormatter)
    parser.add_argument("--jvmx", metavar="PROGRAM", help="the program itself, and not the script that finds it")
    parser.add_argument("names", nargs="*", metavar="NAME", help="the cases of these names")
    words = parser.parse_args()
    named = words.jvmx or (PROVED if PROVED.exists() else launcher.program_to_run())
    cases = [case for case in CASES if not words.names or case.__name__ in words.names]
    right = sum(try_case(Path(named).resolve(), case) for case in cases)
    print(f"{right} texts at a terminal are right, {len(cases) - right} wrong")
    sys.exit(0 if right == len(cases) else 1)


if __name__ == "__main__":
    main()
