"""Runs the program of a crate on the crate's files, as `rt ci` does, and compares what it writes."""
import difflib
import os
import shutil
import signal
import subprocess
from pathlib import Path

ROOT = Path(__file__).resolve().parent.parent
# Seconds that `rt ci` gives a program.
LIMIT = 120
# The lines before the first difference that difflib finds.
HEAD_OF_A_DIFFERENCE = 2
# The environment that `rt ci` gives a program, besides the names of its folder.
ENVIRONMENT = {"PATH": "/usr/local/bin:/usr/bin:/bin", "LANG": "C.UTF-8"}


def content(crate, name):
    """Returns the bytes of a file beside a crate's sources, none where there is no such file."""
    path = ROOT / "crates" / crate / name
    return path.read_bytes() if path.is_file() else b""


def copy_data(crate, folder):
    """Makes the folder in which the program runs, with a copy of the crate's data."""
    data = ROOT / "crates" / crate / "data"
    if data.is_dir():
        shutil.copytree(data, folder)
    else:
        folder.mkdir(parents=True)


def ended(crate, program, folder):
    """Runs the program in a folder. Returns its exit status and what it wrote on both outputs, or None after the limit."""
    words = [program, *content(crate, "args").decode(errors="surrogateescape").splitlines()]
    pipes = {"stdin": subprocess.PIPE, "stdout": subprocess.PIPE, "stderr": subprocess.PIPE}
    places = {"HOME": str(folder), "TMPDIR": str(folder)}
    run = subprocess.Popen(words, cwd=folder, env={**ENVIRONMENT, **places}, start_new_session=True, **pipes)
    try:
        wrote, complained = run.communicate(content(crate, "stdin"), timeout=LIMIT)
    except subprocess.TimeoutExpired:
        return None
    finally:
        if run.poll() is None:
            os.killpg(run.pid, signal.SIGKILL)
            run.wait()
    return run.returncode, wrote, complained


def compared(wanted, wrote):
    """Returns the lines in which two outputs differ, with `-` before those that are wanted and `+` before the others."""
    before, after = (text.decode(errors="replace").splitlines() for text in (wanted, wrote))
    lines = list(difflib.unified_diff(before, after, lineterm="", n=0))[HEAD_OF_A_DIFFERENCE:]
    return [line for line in lines if not line.startswith("@@")] or ["(line ends differ)"]


def differences(crate, program, folder):
    """Runs a crate's program in a new folder, and returns lines that say how it differs from what the crate's files want."""
    copy_data(crate, folder)
    run = ended(crate, Path(program).resolve(), folder)
    if run is None:
        return [f"{crate} hadn't ended after {LIMIT} seconds"]
    status, wrote, complained = run
    found = []
    wanted_status = int(content(crate, "status") or 0)
    if status != wanted_status:
        found.append(f"{crate} ended with status {status}, not {wanted_status}")
        found += complained.decode(errors="replace").splitlines()
    if wrote != content(crate, "stdout"):
        found += [f"{crate} wrote something else than its file stdout has", *compared(content(crate, "stdout"), wrote)]
    return found
