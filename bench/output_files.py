#!/usr/bin/env python3
"""Tries where and how `jvmx asm` writes its class: files, links, pipes, devices, taken names, limits, and calls that fail.

    bench/output_files.py [--jvmx PROGRAM] [NAME...]

A file is replaced as a whole, also if a symbolic link names it. A pipe or a device gets the class as it is. After a refusal
what was there is as it was, and nothing else is there. Two commands at once leave the whole class of one. NAMEs are cases.
The exit status is 1 if something differs.

A case can choose the random bytes of a fresh name, so that it can take the name before, and let a call of the system fail
(output_calls.py).
"""
import argparse
import os
import resource
import stat
import subprocess
import sys
import tempfile
import threading
from pathlib import Path

sys.dont_write_bytecode = True
ROOT = Path(__file__).resolve().parent.parent
sys.path.insert(0, str(ROOT))
import launcher  # noqa: E402
from output_calls import DONE, FAILING, GUESS, LIMIT, REFUSED, SOURCE, Commands, library_in  # noqa: E402

MAGIC = b"\xca\xfe\xba\xbe"
OLD = b"old"
# The program that `rt ci` leaves.
PROVED = ROOT / "crates" / "jvmx" / "out" / "jvmx"
# A byte more than the longest name of a file that Linux has.
TOO_LONG = 256
SMALL_PAIRS, LARGE_PAIRS = 60, 20
# Modes of a file that is there, and what it is to have after it was replaced.
MODES = [0o4750, 0o2755, 0o444, 0o600, 0o666, 0o777]
FIRST_GUESS = 0x0123456789ABCDEF
# The calls that are refused, each the first to the last time that it is tried.
CALLS, MOST_TIMES = ["open", "getentropy", "write", "statx", "fchmod", "rename"], 6
# The runs without a refusal after which no allocation is left, and the fewest allocations of a command.
ENOUGH, LEAST_ALLOCATIONS = 5, 50


def is_class(path):
    """Returns whether a file has a class."""
    return path.read_bytes()[:4] == MAGIC


def names_in(folder):
    """Returns the names of what is in a folder."""
    return sorted(one.name for one in folder.iterdir())


def new_file(asm, folder):
    """a file that isn't there"""
    out = folder / "new.class"
    old = os.umask(0o027)
    status = asm.status(out)
    os.umask(old)
    return status == DONE and is_class(out) and stat.S_IMODE(out.stat().st_mode) == 0o640 and names_in(folder) == ["new.class"]


def old_file(asm, folder):
    """a file that is there"""
    out = folder / "old.class"
    out.write_bytes(OLD)
    return asm.status(out) == DONE and is_class(out) and names_in(folder) == ["old.class"]


def refused_source(asm, folder):
    """a file that is there, where the source is refused"""
    out, source = folder / "kept.class", folder / "bad.j"
    out.write_bytes(OLD)
    source.write_text("nonsense\n")
    return asm.status(out, source) == 2 and out.read_bytes() == OLD and names_in(folder) == ["bad.j", "kept.class"]


def kept_modes(asm, folder):
    """a file whose mode stays"""
    kept = []
    for mode in MODES:
        out = folder / f"{mode:o}.class"
        out.write_bytes(OLD)
        out.chmod(mode)
        kept.append(asm.status(out) == DONE and is_class(out) and stat.S_IMODE(out.stat().st_mode) == mode)
    return all(kept) and len(names_in(folder)) == len(MODES)


def another_owner(asm, folder):
    """a file of another user, whose bits that set user and group don't stay"""
    out = folder / "theirs.class"
    out.write_bytes(OLD)
    if os.geteuid() != 0:
        return True
    os.chown(out, 65534, 65534)
    out.chmod(0o6755)
    return asm.status(out) == DONE and is_class(out) and stat.S_IMODE(out.stat().st_mode) == 0o755


def hard_link(asm, folder):
    """a file with another name, which keeps the old bytes"""
    out, other = folder / "one.class", folder / "other.class"
    other.write_bytes(OLD)
    os.link(other, out)
    return asm.status(out) == DONE and is_class(out) and other.read_bytes() == OLD


def symbolic_link(asm, folder):
    """a symbolic link to a file"""
    out, link = folder / "named.class", folder / "link.class"
    out.write_bytes(OLD)
    out.chmod(0o640)
    link.symlink_to(out.name)
    done = asm.status(link) == DONE and link.is_symlink() and is_class(out)
    return done and stat.S_IMODE(out.stat().st_mode) == 0o640 and len(names_in(folder)) == 2


def link_to_nothing(asm, folder):
    """a symbolic link to a link to a file that isn't there, in another folder"""
    other = folder / "other"
    other.mkdir()
    out, middle, link = other / "later.class", other / "middle.class", folder / "early.class"
    link.symlink_to("other/middle.class")
    middle.symlink_to(out)
    done = asm.status(link) == DONE and link.is_symlink() and middle.is_symlink() and is_class(out)
    return done and names_in(folder) == ["early.class", "other"] and len(names_in(other)) == 2


def links_in_a_circle(asm, folder):
    """two symbolic links that name each other"""
    one, other = folder / "one.class", folder / "other.class"
    one.symlink_to(other.name)
    other.symlink_to(one.name)
    return asm.refuses(one) and one.is_symlink() and other.is_symlink() and len(names_in(folder)) == 2


def pipe(asm, folder):
    """a named pipe"""
    out, read = folder / "pipe", []
    os.mkfifo(out)
    reader = threading.Thread(target=lambda: read.append(out.read_bytes()), daemon=True)
    reader.start()
    status = asm.status(out)
    reader.join(10)
    return status == DONE and stat.S_ISFIFO(out.stat().st_mode) and read[0][:4] == MAGIC


def standard_output(asm, folder):
    """the device of standard output, which is a pipe"""
    # By a link in a folder of its own: a program that replaced the device itself would break the machine.
    link = folder / "stdout"
    link.symlink_to("/proc/self/fd/1")
    ran = asm.run(link, stdout=subprocess.PIPE)
    return ran.returncode == DONE and link.is_symlink() and ran.stdout[:4] == MAGIC


def full_device(asm, folder):
    """a device that is full"""
    link = folder / "full"
    link.symlink_to("/dev/full")
    return asm.refuses(link) and link.is_symlink()


def a_folder(asm, folder):
    """a folder, and a file in a folder that isn't there"""
    inner = folder / "inner"
    inner.mkdir()
    refused = asm.refuses(inner) and asm.refuses(folder / "none" / "x.class")
    return refused and names_in(folder) == ["inner"] and names_in(inner) == []


def no_name(asm, folder):
    """names that no file can have: one that ends in a slash, and the empty one"""
    return asm.refuses("new/", cwd=folder) and asm.refuses("", cwd=folder) and names_in(folder) == []


def long_names(asm, folder):
    """names of up to 255 bytes, and one that is too long"""
    written = []
    for length in range(240, TOO_LONG):
        out = folder / ("x" * length)
        first, second = asm.status(out), asm.status(out)
        written.append(first == second == DONE and is_class(out))
    return all(written) and asm.refuses(folder / ("x" * TOO_LONG)) and len(names_in(folder)) == len(written)


def part_of_another(asm, folder):
    """a file beside OUT.part, be it a file, a link, a hard link or a pipe"""
    victim = folder / "victim"
    victim.write_bytes(OLD)
    parts = [folder / f"{name}.class.part" for name in ["file", "link", "hard", "pipe"]]
    parts[0].write_bytes(OLD)
    parts[1].symlink_to(victim.name)
    os.link(victim, parts[2])
    os.mkfifo(parts[3])
    done = all(asm.status(part.with_suffix("")) == DONE for part in parts)
    outs = all(is_class(part.with_suffix("")) and not part.with_suffix("").is_symlink() for part in parts)
    kept = parts[0].read_bytes() == victim.read_bytes() == OLD and parts[1].is_symlink() and parts[2].samefile(victim)
    return done and outs and kept and stat.S_ISFIFO(parts[3].stat().st_mode) and len(names_in(folder)) == 9


def guessed(folder, number):
    """Returns the path of the fresh file of a number, from the first guess on."""
    return folder / f".jvmx-{FIRST_GUESS + number:x}"


def guess_of(first=FIRST_GUESS):
    """Returns the variables that let names begin with a guess."""
    return {GUESS: str(first)}


def guessed_name(asm, folder):
    """a fresh name that isn't there, which is the one that these cases guess"""
    out = folder / "out.class"
    failing = asm.refuses(out, variables={**guess_of(), FAILING: "rename:1"})
    # A folder of this name would be in the way of the file, if this weren't the name.
    guessed(folder, 0).mkdir()
    return failing and asm.status(out, variables={**guess_of(), FAILING: "getentropy:2"}) == REFUSED and not out.exists()


def taken_names(asm, folder):
    """fresh names that are there: a link to a file, a hard link, a pipe, a folder, a link to nothing, a file"""
    victim, out = folder / "victim", folder / "out.class"
    victim.write_bytes(OLD)
    guessed(folder, 0).symlink_to(victim.name)
    os.link(victim, guessed(folder, 1))
    os.mkfifo(guessed(folder, 2))
    guessed(folder, 3).mkdir()
    guessed(folder, 4).symlink_to("nothing")
    guessed(folder, 5).write_bytes(OLD)
    before = names_in(folder)
    done = asm.status(out, variables=guess_of()) == DONE and is_class(out) and not out.is_symlink()
    kept = victim.read_bytes() == guessed(folder, 5).read_bytes() == OLD and guessed(folder, 0).is_symlink()
    return done and kept and names_in(folder) == sorted([*before, out.name])


def all_names_taken(asm, folder):
    """a file where more names are taken than are tried"""
    out = folder / "out.class"
    out.write_bytes(OLD)
    for number in range(100):
        guessed(folder, number).symlink_to("nothing")
    return asm.refuses(out, variables=guess_of()) and out.read_bytes() == OLD and len(names_in(folder)) == 101


def failing_calls(asm, folder):
    """a file, where a call of the system fails: each one, each time"""
    right, refused = [], set()
    for call in CALLS:
        for time in range(1, MOST_TIMES + 1):
            for is_old in [True, False]:
                ran, is_right = one_failing(asm, folder / f"{call}-{time}-{is_old}", is_old, f"{call}:{time}")
                right.append(is_right)
                refused |= {call} if ran.returncode == REFUSED else set()
    return all(right) and refused == set(CALLS)


def one_failing(asm, folder, is_old, failing):
    """Runs a command with a failing call. Returns how it ended, and whether that is right."""
    folder.mkdir()
    out = folder / "out.class"
    if is_old:
        out.write_bytes(OLD)
    ran = asm.run(out, variables={FAILING: failing})
    if ran.returncode == DONE:
        return ran, is_class(out) and names_in(folder) == [out.name]
    # The second write may be that of the refusal itself.
    is_line = ran.stderr.endswith(b": P02 File\n")
    is_kept = out.read_bytes() == OLD if is_old else not out.exists()
    return ran, ran.returncode == REFUSED and is_line and is_kept and names_in(folder) == ([out.name] if is_old else [])


def failing_allocations(asm, folder):
    """a file, where an allocation is refused: each one"""
    out, number, done = folder / "out.class", 0, 0
    while done < ENOUGH:
        number += 1
        out.write_bytes(OLD)
        if asm.status(out, variables={FAILING: f"malloc:{number}"}) == DONE:
            done += 1
            is_right = is_class(out)
        else:
            done = 0
            is_right = out.read_bytes() == OLD
        if not is_right or names_in(folder) != [out.name]:
            return False
    return number > LEAST_ALLOCATIONS


def limited_size(asm, folder):
    """a file that would exceed the limit on its size"""
    whole = folder / "whole.class"
    if asm.status(whole) != DONE:
        return False
    size, right = whole.stat().st_size, []
    for limit in [0, 1, size - 1, size, size + 1]:
        for is_old in [True, False]:
            out = folder / f"{limit}-{is_old}.class"
            if is_old:
                out.write_bytes(OLD)
            limited = {"preexec_fn": lambda: resource.setrlimit(resource.RLIMIT_FSIZE, (limit, limit))}
            if limit >= size:
                right.append(asm.status(out, **limited) == DONE and out.read_bytes() == whole.read_bytes())
            else:
                right.append(asm.refuses(out, **limited) and (out.read_bytes() == OLD if is_old else not out.exists()))
    return all(right) and not any(name.startswith(".") for name in names_in(folder))


def limited_by_a_shell(asm, folder):
    """a large class under the shell's `ulimit -f 1`"""
    source, out = folder / "Large.j", folder / "out.class"
    source.write_text(large_source("Large", 100))
    out.write_bytes(OLD)
    command = ["bash", "-c", 'ulimit -f 1; exec "$0" asm "$1" "$2"', asm.jvmx, source, out]
    ran = subprocess.run(command, stderr=subprocess.PIPE)
    is_refused = ran.returncode == REFUSED and ran.stderr == os.fsencode(f"jvmx: {out}: P02 File\n")
    return is_refused and out.read_bytes() == OLD and names_in(folder) == ["Large.j", "out.class"]


def large_source(name, fields):
    """Returns the source of a class with many fields."""
    lines = [f".field public static {'x' * 60}{name}{number} I" for number in range(fields)]
    return "\n".join([f".class public {name}", ".super java/lang/Object", *lines, ""])


def at_once(asm, folder, fields, pairs):
    """Returns whether two commands with one OUT leave the whole class of one, each time."""
    wanted = []
    for name in ["One", "Other"]:
        (folder / f"{name}.j").write_text(large_source(name, fields))
        if asm.status(folder / f"{name}.class", folder / f"{name}.j") != DONE:
            return False
        wanted.append((folder / f"{name}.class").read_bytes())
    right, out = [], folder / "out.class"
    for pair in range(pairs):
        if pair % 2:
            out.unlink()
        running = [subprocess.Popen([asm.jvmx, "asm", folder / f"{name}.j", out]) for name in ["One", "Other"]]
        right.append([one.wait(LIMIT) for one in running] == [DONE, DONE] and out.read_bytes() in wanted)
    return all(right) and len(names_in(folder)) == 5


def two_at_once(asm, folder):
    """one file, by two commands at once"""
    return at_once(asm, folder, 1, SMALL_PAIRS)


def two_large_at_once(asm, folder):
    """one file, by two commands with large classes at once"""
    return at_once(asm, folder, 20_000, LARGE_PAIRS)


CASES = [
    new_file, old_file, refused_source, kept_modes, another_owner, hard_link, symbolic_link, link_to_nothing,
    links_in_a_circle, pipe, standard_output, full_device, a_folder, no_name, long_names, part_of_another, guessed_name,
    taken_names, all_names_taken, failing_calls, failing_allocations, limited_size, limited_by_a_shell, two_at_once,
    two_large_at_once,
]


def try_case(asm, case):
    """Tries a case in a folder of its own, and prints what differs. Returns whether it is right."""
    with tempfile.TemporaryDirectory() as folder:
        try:
            is_right = case(asm, Path(folder))
        except (OSError, subprocess.TimeoutExpired) as error:
            print(error)
            is_right = False
    if not is_right:
        print(f"asm to {case.__doc__}: wrong ({case.__name__})")
    return is_right


def main():
    """Tries the cases."""
    parser = argparse.ArgumentParser(description=__doc__, formatter_class=argparse.RawDescriptionHelpFormatter)
    parser.add_argument("--jvmx", metavar="PROGRAM", help="the program itself, and not the script that finds it")
    parser.add_argument("names", nargs="*", metavar="NAME", help="the cases of these names")
    words = parser.parse_args()
    named = words.jvmx or (PROVED if PROVED.exists() else launcher.program_to_run())
    cases = [case for case in CASES if not words.names or case.__name__ in words.names]
    with tempfile.TemporaryDirectory() as folder:
        asm = Commands(Path(named).resolve(), library_in(Path(folder)))
        right = sum(try_case(asm, case) for case in cases)
    print(f"{right} outputs of asm are right, {len(cases) - right} wrong")
    sys.exit(0 if right == len(cases) else 1)


if __name__ == "__main__":
    main()
