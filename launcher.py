#!/usr/bin/env python3
"""Finds or builds the program that `./jvmx` runs, and prints its path. What it does is said on standard error.

    launcher.py                      the proved program if it is current, else one that is built without a proof
    launcher.py --prove              the proved program, proved here if need be
    launcher.py --describe PROGRAM   which build one of the programs below is, and of which sources
    launcher.py --quick NAME FILE    builds the program of crate NAME as FILE, without a proof and without checks

A program is current if it was built from the sources as they are. Three may be there:

    crates/jvmx/out/jvmx             the proved one, left by `rt ci` or by `--prove`
    crates/jvmx/out/unproved/jvmx    of sources that the gate proved, built without a new proof
    crates/jvmx/out/checked/jvmx     of other sources, or of sources that it may not have proved, with all checks

The gate proved what git says is a commit of the main line, unchanged: jvmx_build/checkout.py decides that.
"""
import contextlib
import fcntl
import os
import select
import shutil
import signal
import stat
import sys
import threading
import time
from pathlib import Path
from typing import NamedTuple

ROOT = Path(__file__).resolve().parent
sys.dont_write_bytecode = True
sys.path.insert(0, str(ROOT))
from jvmx_build import FAILED, checkout, proved, quick  # noqa: E402

OUT = ROOT / "crates" / "jvmx" / "out"
LOG = OUT / "launcher.log"
# The folder of what a quick build makes on its way.
BUILDING = OUT / "building"
# The exit status of jvmx where words are refused.
UNKNOWN_WORDS = 2
STANDARD_OUTPUT = 1
# The signals that end a build.
ENDING = (signal.SIGTERM, signal.SIGHUP)

# What is said before a build.
QUICK_BUILD = (
    "building the program without a new proof, in two to three minutes: the gate proved these sources ({name}), and"
    " ./jvmx --prove proves them here"
)
CHECKED_BUILD = (
    "{doubt}; building the program with all checks, in about four minutes: it is four to five times slower and stops at"
    " the first check that fails; ./jvmx --prove proves it"
)
PROOF = "proving and building the program, which takes most of an hour the first time, and minutes after an edit"
NO_KIT = (
    "there is no rt on the PATH ({path}); rt is the command of the Rattle toolchain, the kit that proves and builds this"
    " program: put the kit's folder bin on the PATH"
)
NO_FOLDER = "a program has to be built from these sources, but no file can be written here ({file}: {why})"


class Failed(Exception):
    """There is no program to run. Has a line that says why, and what the command said that failed."""

    def __init__(self, line, said=""):
        super().__init__(line)
        self.said = said


class Record(NamedTuple):
    """What a program was built from."""

    program: str  # its own hash, since `rt` may put another in its place
    sources: str  # the hash of the sources
    origin: str  # "commit d0a9e17c on origin/main"
    count: str  # how many sources there were. `jvmx` reads this line


class Build(NamedTuple):
    """A program that may be there, and the words that describe it."""

    program: Path
    words: str

    def record_file(self):
        """Returns the file that keeps the record, beside the program."""
        return self.program.with_name("jvmx.sources")

    def record(self):
        """Returns what the program was built from, or None where there is no program, or no record of it."""
        if not self.program.exists() or not self.record_file().exists():
            return None
        lines = self.record_file().read_text(encoding="utf-8").splitlines()
        if len(lines) != len(Record._fields) or lines[0] != checkout.hash_of_file(self.program):
            return None
        return Record(*lines)

    def keep_record(self, sources, origin):
        """Writes down what the program was built from."""
        lines = Record(checkout.hash_of_file(self.program), sources, origin, str(len(checkout.source_files())))
        self.record_file().write_text("\n".join([*lines, ""]), encoding="utf-8")

    def is_current(self):
        """Returns whether the program was built from the sources as they are. If so, the next call sees it by its time."""
        record, begin = self.record(), time.time()
        if not record:
            return False
        files = checkout.source_files()
        if record.count == str(len(files)) and checkout.is_newest(self.program, files):
            return True
        if record.sources != checkout.hash_of_sources():
            return False
        with contextlib.suppress(OSError):
            os.utime(self.program, (begin, begin))
        return True

    def install(self, made, begin, sources, origin):
        """Puts a program in its place, as built at the time when its sources were read."""
        self.program.parent.mkdir(parents=True, exist_ok=True)
        os.utime(made, (begin, begin))
        os.replace(made, self.program)
        self.keep_record(sources, origin)


PROVED = Build(OUT / "jvmx", "proved, from {}")
UNCHECKED = Build(OUT / "unproved" / "jvmx", "built without a new proof from {}, which the gate proved")
CHECKED = Build(OUT / "checked" / "jvmx", "unproved, built with all checks from {}")


def say(text):
    """Prints a line on standard error."""
    print(f"jvmx: {text}", file=sys.stderr, flush=True)


class Progress:
    """Shows on a terminal what is done and for how many seconds, in one line that is written anew each second."""

    def __init__(self, step):
        self.step = step
        self.begin = time.time()
        self.ended = threading.Event()
        self.thread = threading.Thread(target=self.show, daemon=True)

    def report(self, step):
        """Changes what is shown as done."""
        self.step = step

    def show(self):
        """Writes the line until the end, then clears it."""
        while not self.ended.wait(1):
            print(f"\r\x1b[Kjvmx: {self.step}, {time.time() - self.begin:.0f} s", end="", file=sys.stderr, flush=True)
        print("\r\x1b[K", end="", file=sys.stderr, flush=True)

    def __enter__(self):
        if sys.stderr.isatty():
            self.thread.start()
        return self

    def __exit__(self, *_):
        self.ended.set()
        if self.thread.is_alive():
            self.thread.join()


def lock_file():
    """Opens the file that has one launcher of this checkout build at a time."""
    try:
        OUT.mkdir(parents=True, exist_ok=True)
        return open(OUT / "launcher.lock", "w")
    except OSError as error:
        raise Failed(NO_FOLDER.format(file=error.filename, why=error.strerror)) from None


@contextlib.contextmanager
def turn():
    """Waits until no other launcher of this checkout builds, and has others wait."""
    with lock_file() as file:
        try:
            fcntl.flock(file, fcntl.LOCK_EX | fcntl.LOCK_NB)
        except BlockingIOError:
            say("waiting for another call, which builds a program")
            fcntl.flock(file, fcntl.LOCK_EX)
        yield


@contextlib.contextmanager
def empty_folder():
    """Makes an empty folder for a build, which is removed after it. What a killed build left is removed before."""
    shutil.rmtree(BUILDING, ignore_errors=True)
    BUILDING.mkdir(parents=True)
    try:
        yield BUILDING
    finally:
        shutil.rmtree(BUILDING, ignore_errors=True)


def need_kit():
    """Fails where the kit isn't found."""
    if not quick.kit_folder():
        raise Failed(NO_KIT.format(path=os.environ.get("PATH", "")))


def can_build():
    """Returns whether a program can be built here."""
    return bool(quick.kit_folder()) and os.access(OUT, os.W_OK)


def prove():
    """Proves and builds the program, and returns its path."""
    begin, sources, name = time.time(), checkout.hash_of_sources(), checkout.origin().name
    with Progress("proving") as progress:
        said = proved.build("jvmx", progress.report)
    if said:
        LOG.write_text(said)
        raise Failed(f"the program isn't proved; what was said is in {LOG}", said.rstrip())
    # rt may have left an older program, if nothing changed since. It counts as one of the time at which this began.
    os.utime(PROVED.program, (begin, begin))
    if checkout.hash_of_sources() != sources:
        raise Failed("a source changed while the program was proved: call again")
    PROVED.keep_record(sources, name)
    return PROVED.program


def make(kind, folder, progress):
    """Makes the program in a folder without a proof, and returns its place there."""
    LOG.write_bytes(b"")
    if kind == CHECKED:
        return quick.build("jvmx", folder, LOG, with_checks=True, report=progress.report)
    return quick.build_and_run("jvmx", folder, LOG, progress.report)


def build():
    """Builds the program without a proof, and returns its path. Where the kit isn't as expected, proves instead."""
    begin, sources, found = time.time(), checkout.hash_of_sources(), checkout.origin()
    kind, line = (CHECKED, CHECKED_BUILD) if found.doubt else (UNCHECKED, QUICK_BUILD)
    say(line.format(**found._asdict()))
    try:
        with empty_folder() as folder, Progress("building") as progress:
            made = make(kind, folder, progress)
            if checkout.hash_of_sources() != sources:
                raise Failed("a source changed while the program was built: call again")
            kind.install(made, begin, sources, found.name)
    except quick.Refused as refusal:
        raise Failed(f"the sources don't compile; what was said is in {LOG}", str(refusal)) from None
    except quick.UnknownKit as cause:
        say(f"this kit builds no program without a proof ({cause}; {LOG} may say more), so: {PROOF}")
        return prove()
    return kind.program


def is_proved():
    """Returns whether the proved program is current. One that `rt ci` left has no record yet, and gets it here."""
    if PROVED.record():
        return PROVED.is_current()
    if not PROVED.program.exists():
        return False
    # A deleted source shows in the time of its folder.
    files = [*checkout.source_files(), *(folder for folder, _ in checkout.source_folders())]
    if not checkout.is_newest(PROVED.program, files) or not checkout.has_whole_folders():
        return False
    with contextlib.suppress(OSError):
        PROVED.keep_record(checkout.hash_of_sources(), checkout.origin().name)
    return True


def current_program():
    """Returns the path of the program to run, or None if it has to be built."""
    if is_proved():
        return PROVED.program
    if UNCHECKED.is_current():
        return UNCHECKED.program
    # Of sources that the gate has proved since, a quicker program can be built.
    if CHECKED.is_current() and (checkout.origin().doubt or not can_build()):
        return CHECKED.program
    return None


def program_to_run():
    """Returns the path of a current program, built now if need be."""
    found = current_program()
    if found:
        return found
    need_kit()
    with turn():
        # Another call may have built it meanwhile.
        return current_program() or build()


def proved_program():
    """Returns the path of the proved program, proved now if need be."""
    if not is_proved():
        need_kit()
        with turn():
            if not is_proved():
                say(PROOF)
                return prove()
    return PROVED.program


def description(program):
    """Returns the line that says which build a program is, and of which sources."""
    kind = next((one for one in (PROVED, UNCHECKED, CHECKED) if one.program == program), None)
    if not kind:
        raise Failed(f"{program} isn't a program of this checkout")
    record = kind.record()
    return kind.words.format(record.origin if record else "unknown sources")


def need_programs(names):
    """Fails where a name isn't that of a crate with a program."""
    for name in names:
        if not (ROOT / "crates" / name / "src" / "main.rt").exists():
            raise Failed(f"there is no crate {name} with a program")


def build_as(name, file, with_checks=False):
    """Builds the program of a crate without a proof, for those who measure it or run its cases."""
    need_programs([name])
    need_kit()
    with turn(), empty_folder() as folder, Progress(f"building {name}") as progress:
        LOG.write_bytes(b"")
        try:
            shutil.move(quick.build(name, folder, LOG, with_checks, progress.report), file)
        except quick.Refused as refusal:
            raise Failed(f"the sources don't compile; what was said is in {LOG}", str(refusal)) from None
        except quick.UnknownKit as cause:
            raise Failed(f"this kit builds no program without a proof: {cause}; {LOG} may say more") from None


def answer(words):
    """Does what the words ask for, and returns the line to print, if any."""
    if not words:
        return program_to_run()
    if words == ["--prove"]:
        return proved_program()
    if words[0] == "--describe" and len(words) == 2:
        return description(Path(words[1]))
    if words[0] == "--quick" and len(words) == 3:
        return build_as(*words[1:])
    print(__doc__.strip(), file=sys.stderr)
    sys.exit(UNKNOWN_WORDS)


def stop(number, _):
    """Ends this program at a signal, and its commands with it, and has its folders removed."""
    for one in ENDING:
        signal.signal(one, signal.SIG_IGN)
    sys.exit(128 + number)


def stop_without_reader():
    """Ends this program once no one reads the pipe that it prints to, as where `jvmx` was ended. There may be no pipe."""
    with contextlib.suppress(OSError):
        if stat.S_ISFIFO(os.fstat(STANDARD_OUTPUT).st_mode):
            pipe = select.poll()
            pipe.register(STANDARD_OUTPUT, 0)
            pipe.poll()
            os.kill(os.getpid(), signal.SIGTERM)


def guarded(work):
    """Does some work, and ends with one line and a status where it fails."""
    for one in ENDING:
        signal.signal(one, stop)
    try:
        work()
    except Failed as cause:
        if cause.said:
            print(cause.said, file=sys.stderr)
        say(cause)
        sys.exit(FAILED)
    except OSError as error:
        say(f"{error.filename}: {error.strerror}" if error.filename else error)
        sys.exit(FAILED)
    except KeyboardInterrupt:
        sys.exit(128 + signal.SIGINT)


def main():
    """Prints what the words ask for."""
    threading.Thread(target=stop_without_reader, daemon=True).start()
    line = answer(sys.argv[1:])
    if line:
        print(line)


if __name__ == "__main__":
    guarded(main)
