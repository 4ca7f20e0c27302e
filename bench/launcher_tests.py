#!/usr/bin/env python3
"""Tests `./jvmx` and its launcher in small repositories: what they say of proof, which program they run, and how they end.

    bench/launcher_tests.py [WORD...]   those whose description has one of the words, else all

No program is built: the kit that they find refuses all sources. The exit status is 1 if something differs.
"""
import ast
import os
import shutil
import signal
import subprocess
import sys
import tempfile
import time
from concurrent.futures import ThreadPoolExecutor
from pathlib import Path

sys.dont_write_bytecode = True
from launcher_histories import HISTORIES, LOOK, OTHERS, PROVED, UNKNOWN, an_edited_source  # noqa: E402
from small_repository import PROGRAM, ROOT, Place, write  # noqa: E402

from jvmx_build.checkout import FIRST_COMMIT, Report, origin_of, report  # noqa: E402

OUT = "crates/jvmx/out"
# What the line before a build also says, where it has all checks.
CHECKED = ("; building the program with all checks", "; ./jvmx --prove proves it")
# The exit status of jvmx where a file or a device fails.
FAILED = 3
# Seconds for what ends at once.
SOON = 20
# The last Python that parses by the syntax of this one, of those that newer ones can check.
OLD_SYNTAX = (3, 7)

COMMIT = Report(commit="0123456789", first_commits=(FIRST_COMMIT,), mains=("origin/main",))
# What git says, and how the line begins that says why the gate may not have proved the sources.
REPORTS = (
    (COMMIT, ""),
    (COMMIT._replace(first_commits=("another", FIRST_COMMIT)), ""),
    (COMMIT._replace(changes=(f"{LOOK} is edited",)), f"{OTHERS}{LOOK} is edited, since commit 01234567"),
    (COMMIT._replace(changes=("a is added", "b is deleted")), f"{OTHERS}a is added, and 1 more changed, since commit"),
    (COMMIT._replace(lacking=("origin/main",)), f"{OTHERS}commit 01234567 isn't on origin/main"),
    (COMMIT._replace(mains=()), UNKNOWN),
    (COMMIT._replace(first_commits=("another",)), UNKNOWN),
    (COMMIT._replace(first_commits=()), UNKNOWN),
    (COMMIT._replace(is_shallow=True), UNKNOWN),
    (COMMIT._replace(problem="there is no git"), f"{UNKNOWN}there is no git"),
)


def decides(_):
    """the decision, for each of what git may say"""
    lines = [(origin_of(one).doubt, begin[len("jvmx: "):]) for one, begin in REPORTS]
    return all(line.startswith(begin) if begin else not line for line, begin in lines)


def has_first_commit(_):
    """the first commit that checkout.py names, where git knows the history of this folder"""
    known = report()
    is_history = not known.problem and not known.is_shallow and known.first_commits != (known.commit,)
    return not is_history or FIRST_COMMIT in known.first_commits


def says(place, history):
    """Returns whether `./jvmx` says what it should, where a history makes a folder."""
    folder, begin = history(place)
    status, out, err = place.run(folder)
    line = err.partition("\n")[0]
    is_right = line.startswith(begin) and (begin.startswith(PROVED) or all(words in line for words in CHECKED))
    return is_right and (status, out) == (FAILED, "") and "don't compile" in err


# Each of the next functions returns whether something is as it should be.


def without_git(place):
    """a clone, without git on the PATH"""
    status, _, err = place.run(place.clone(), without=["git"])
    return status == FAILED and err.startswith(f"{UNKNOWN}there is no git on the PATH")


def without_kit(place):
    """a clone, without rt on the PATH"""
    status, _, err = place.run(place.clone(), without=["rt"])
    return status == FAILED and err.startswith("jvmx: there is no rt on the PATH") and len(err.splitlines()) == 1


def install(place, folder, kind, is_recorded=True):
    """Puts a program in the place of a kind, as if it had been built now."""
    write(folder / "program", PROGRAM, 0o755)
    if is_recorded:
        how = "launcher.{}.install('program', time.time(), launcher.checkout.hash_of_sources(), 'commit 1')".format(kind)
        place.run(folder, ["python3", "-c", f"import launcher, time; {how}"])
    else:
        (folder / OUT).mkdir(parents=True)
        shutil.move(str(folder / "program"), str(folder / OUT / "jvmx"))


def runs(place, folder, words, without=("rt", "git")):
    """Returns whether `./jvmx` runs a program that is there, and says this of it. No kit and no git are needed."""
    status, out, err = place.run(folder, without=without)
    return (status, err) == (0, "") and out.startswith("runs\n") and words in out


def runs_current(place):
    """a program of sources that the gate proved, as it is, copied, and in a folder without room for a lock"""
    clone, copy = place.clone(), place.folder / "copy"
    install(place, clone, "UNCHECKED")
    words = "built without a new proof from commit 1, which the gate proved"
    is_run = runs(place, clone, words, without=[]) and runs(place, clone, words)
    shutil.copytree(clone, copy, symlinks=True)
    (copy / OUT / "launcher.lock").mkdir()
    shutil.rmtree(copy / ".git")
    return is_run and runs(place, copy, words)


def runs_checked(place):
    """a program with all checks, of edited sources, and of sources that the gate has proved since where none can be built"""
    (clone, _), other = an_edited_source(place), place.clone()
    install(place, clone, "CHECKED")
    install(place, other, "CHECKED")
    words = "unproved, built with all checks from commit 1"
    is_run = runs(place, clone, words, without=[]) and runs(place, other, words, without=["rt"])
    return is_run and place.run(other)[2].startswith(PROVED)


def runs_proved(place):
    """a program that rt ci left"""
    clone = place.clone()
    install(place, clone, "PROVED", is_recorded=False)
    return runs(place, clone, "proved, from commit ", without=[]) and runs(place, clone, "proved, from commit ")


def skips(place, change):
    """Returns whether no program runs after a change of the sources from which it was built, neither an unproved one nor a
    proved one, also of one that `rt ci` left."""
    ended = []
    for kind, is_recorded in (("UNCHECKED", True), ("PROVED", True), ("PROVED", False)):
        clone = place.clone()
        install(place, clone, kind, is_recorded)
        change(clone)
        ended.append(place.run(clone))
    return all((status, out) == (FAILED, "") and err.startswith(OTHERS) for status, out, err in ended)


def skips_edited(place):
    """a program from before a source was edited"""
    return skips(place, lambda clone: write(clone / LOOK, "edited\n"))


def skips_deleted(place):
    """a program from before a source was deleted"""
    return skips(place, lambda clone: (clone / LOOK).unlink())


def skips_deleted_folder(place):
    """a program from before a folder of sources was deleted"""
    return skips(place, lambda clone: shutil.rmtree(clone / LOOK.rpartition("/")[0]))


def skips_replaced(place):
    """a program from before an older file took the place of a source"""
    return skips(place, lambda clone: os.replace(clone / ".gitignore", clone / LOOK))


def skips_renamed(place):
    """a program from before a source got another name"""
    return skips(place, lambda clone: os.rename(clone / LOOK, f"{clone / LOOK}.rt"))


def no_folder(place):
    """a folder in which no file can be written"""
    clone = place.clone()
    (clone / OUT / "launcher.lock").mkdir(parents=True)
    status, out, err = place.run(clone)
    return (status, out) == (FAILED, "") and "no file can be written here" in err and len(err.splitlines()) == 1


def installed_packages(place):
    """installed packages `build` and `jvmx_build`"""
    installed = place.folder / "installed"
    for name in ("build", "jvmx_build", "launcher"):
        write(installed / name / "__init__.py", "raise SystemExit('an installed package')\n")
    clone = place.clone()
    import_it = "import runpy, sys; sys.path.append(sys.path.pop(0)); runpy.run_path('launcher.py', run_name='__main__')"
    ways = (["./jvmx", "-V"], ["./launcher.py"], ["python3", "-c", import_it])
    return all(place.run(clone, words, PYTHONPATH=str(installed))[2].startswith(PROVED) for words in ways)


def an_old_python(place):
    """a Python that is too old"""
    for file in (ROOT / "launcher.py", ROOT / "jvmx_build" / "__init__.py"):
        ast.parse(file.read_text(), feature_version=OLD_SYNTAX)
    old = "import runpy, sys; sys.version_info = (3, 7, 17); runpy.run_path('launcher.py', run_name='__main__')"
    status, out, err = place.run(place.clone(), ["python3", "-c", old])
    return (status, out) == (FAILED, "") and len(err.splitlines()) == 1 and "needs Python 3.8 or later" in err


def are_gone(numbers):
    """Waits until processes have ended, and returns whether they have."""
    for _ in range(SOON * 10):
        if not any(Path("/proc", number).exists() for number in numbers):
            return True
        time.sleep(0.1)
    return False


def ends(place, words, of_launcher):
    """Returns whether a signal to a command, or to the launcher that it starts, ends all that it started."""
    clone, numbers = place.clone(), place.folder / f"numbers{len(list(place.folder.glob('numbers*')))}"
    numbers.mkdir()
    streams = dict.fromkeys(["stdin", "stdout", "stderr"], subprocess.DEVNULL)
    run = subprocess.Popen(words, cwd=clone, env=place.variables(NUMBERS=str(numbers)), **streams)
    begin = time.time()
    while not os.listdir(numbers) and time.time() - begin < SOON:
        time.sleep(0.1)
    started = os.listdir(numbers)
    parents = [Path("/proc", number, "stat").read_text().rpartition(")")[2].split()[1] for number in started]
    os.kill(int(parents[0]) if of_launcher else run.pid, signal.SIGTERM)
    run.wait()
    return bool(started) and are_gone([*started, *parents]) and not (clone / OUT / "building").exists()


def ends_build(place):
    """a build, by a signal to jvmx and to the launcher"""
    return all(ends(place, ["./jvmx", "-V"], of_launcher) for of_launcher in (False, True))


def ends_proof(place):
    """a proof, by a signal to jvmx and to the launcher"""
    return all(ends(place, ["./jvmx", "--prove"], of_launcher) for of_launcher in (False, True))


CASES = [
    decides, has_first_commit, without_git, without_kit, runs_current, runs_checked, runs_proved, skips_edited,
    skips_deleted, skips_deleted_folder, skips_replaced, skips_renamed, no_folder, installed_packages,
    an_old_python, ends_build, ends_proof,
]  # fmt: skip


def is_right(case, place):
    """Runs a test in a place of its own. Prints what it is about if it fails, and returns whether it doesn't."""
    if says(place, case) if case in HISTORIES else case(place):
        return True
    print(f"wrong: {case.__doc__}", flush=True)
    return False


def main():
    """Runs the tests that the words name."""
    words = sys.argv[1:]
    cases = [case for case in [*HISTORIES, *CASES] if not words or any(word in case.__doc__ for word in words)]
    with tempfile.TemporaryDirectory() as name, ThreadPoolExecutor(os.cpu_count()) as pool:
        folder = Path(name).resolve()
        first = Place(folder / "first")
        first.make()
        places = [first.copy(folder / case.__name__) for case in cases]
        wrong = list(pool.map(is_right, cases, places)).count(False)
    print(f"{len(cases) - wrong} launcher tests are right, {wrong} wrong")
    sys.exit(1 if wrong else 0)


if __name__ == "__main__":
    main()
