"""Says what the sources of this checkout are: of which commit, whether the gate proved them, whether they changed."""
import hashlib
import os
import shutil
import subprocess
from pathlib import Path
from typing import NamedTuple, Tuple

ROOT = Path(__file__).resolve().parent.parent
# The folders of a crate that a build reads. `jvmx` looks at the same, and at crates.txt.
FOLDERS = ("src", "specs", "proofs")
# The first commit of this repository. The hash of a commit says which one its history begins with.
FIRST_COMMIT = "a28d54fe77b526afb871802c8fa5f3e59fc967c7"
# The main line, as git knows it: the branch `main` of each remote. In a pattern of git, `*` matches no `/`.
MAINS = "refs/remotes/*/main"
# The only variables for git that are passed on: others may name another checkout, or change what a word means.
PASSED_ON = ("GIT_CONFIG", "GIT_EXEC_PATH")

LENGTH_OF_SHA1 = 40
# How the address of a remote on this machine may begin.
FILE = "file://"

# How a line begins that says why the gate may not have proved the sources.
UNKNOWN = "it can't be known whether the gate proved these sources: "
OTHERS = "the gate didn't prove these sources: "
NO_HISTORY = "this folder has no history of git, as an archive or a copy"
NO_GIT = "there is no git on the PATH, and it would say of which commit they are"


class Report(NamedTuple):
    """What git says of this checkout, and how the sources differ from its commit."""

    problem: str = ""  # why git says nothing; else empty
    commit: str = ""  # the hash of the commit that is checked out
    changes: Tuple[str, ...] = ()  # "crates/classes/src/look.rt is deleted"
    is_shallow: bool = False  # whether older commits were left out of the clone
    first_commits: Tuple[str, ...] = ()  # the hashes of those that the commit's history begins with
    mains: Tuple[str, ...] = ()  # the branches `main` of remotes: "origin/main"
    lacking: Tuple[str, ...] = ()  # those of them that don't have the commit


class Origin(NamedTuple):
    """Where sources are from."""

    name: str  # "commit d0a9e17c on origin/main"
    doubt: str  # a line that says why the gate may not have proved them; else empty


class GitFails(Exception):
    """Git doesn't answer. Says why."""


def doubt_of_history(report):
    """Returns why the commit may be none of the main line, as a line; empty if git says that it is."""
    if report.is_shallow:
        return f"{UNKNOWN}this clone has no older commits, which git fetch --unshallow gets"
    if FIRST_COMMIT not in report.first_commits:
        return f"{UNKNOWN}the history of this folder isn't that of the repository of jvmx"
    if not report.mains:
        return f"{UNKNOWN}no remote's branch main is known here"
    if report.lacking:
        return f"{OTHERS}commit {report.commit[:8]} isn't on {report.lacking[0]}, as it was fetched last"
    return ""


def origin_of(report):
    """Decides by what git says where sources are from, and whether the gate proved them."""
    commit = f"commit {report.commit[:8]}"
    if report.problem:
        return Origin("sources of an unknown commit", f"{UNKNOWN}{report.problem}")
    if report.changes:
        others = f", and {len(report.changes) - 1} more changed" if report.changes[1:] else ""
        return Origin(f"edited sources, after {commit}", f"{OTHERS}{report.changes[0]}{others}, since {commit}")
    doubt = doubt_of_history(report)
    return Origin(commit if doubt else f"{commit} on {', '.join(report.mains)}", doubt)


def git(*words, folder=ROOT):
    """Returns what git prints about a repository, or fails."""
    if not shutil.which("git"):
        raise GitFails(NO_GIT)
    passed = {name: value for name, value in os.environ.items() if not name.startswith("GIT_") or name.startswith(PASSED_ON)}
    streams = {"stdin": subprocess.DEVNULL, "stdout": subprocess.PIPE, "stderr": subprocess.PIPE}
    # A replaced commit isn't the one that its hash names.
    ran = subprocess.run(["git", *words], cwd=folder, env={**passed, "GIT_NO_REPLACE_OBJECTS": "1"}, **streams)
    if ran.returncode:
        said = ran.stderr.decode(errors="replace").strip().splitlines()
        raise GitFails(f"git doesn't read this checkout ({said[0] if said else ran.returncode})")
    return os.fsdecode(ran.stdout).strip()


def is_source(path):
    """Returns whether a build reads the file of a path that begins at the top."""
    words = path.split("/")
    return path == "crates.txt" or len(words) > 3 and words[0] == "crates" and words[2] in FOLDERS


def committed_sources():
    """Returns the hash of each source of the commit that is checked out, by its path."""
    entries = (entry.partition("\t") for entry in git("ls-tree", "-r", "-z", "HEAD").split("\0") if entry)
    return {path: words.split()[2] for words, _, path in entries if is_source(path)}


def hash_by_git(path, length):
    """Returns the hash that git gives a file, of a length in hexadecimal digits."""
    text = path.read_bytes()
    found = hashlib.new("sha1" if length == LENGTH_OF_SHA1 else "sha256")
    found.update(b"blob %d\0" % len(text))
    found.update(text)
    return found.hexdigest()


def changes():
    """Returns how the sources differ from those of the commit that is checked out, whatever git's index says."""
    committed = committed_sources()
    present = {path.relative_to(ROOT).as_posix(): path for path in source_files()}
    found = [(path, "added") for path in present if path not in committed]
    found += [(path, "deleted") for path in committed if path not in present]
    for path, wanted in committed.items():
        if path in present and hash_by_git(present[path], len(wanted)) != wanted:
            found.append((path, "edited"))
    return tuple(f"{ascii(path)[1:-1]} is {change}" for path, change in sorted(found))


def mains_of(folder, *words):
    """Returns the branches `main` of the remotes of a repository, those that git selects by some words."""
    try:
        return git("for-each-ref", "--format=%(refname:lstrip=2)", *words, MAINS, folder=folder).split()
    except GitFails:
        return []


def place_of(folder, main):
    """Returns the folder of the remote that has a branch, or None where the remote isn't on this machine."""
    url = git("config", "--default", "", "--get", f"remote.{main.rpartition('/')[0]}.url", folder=folder)
    place = Path(folder, url[len(FILE):] if url.startswith(FILE) else url or "none")
    return place.resolve() if place.is_dir() else None


def add_mains(found, folder):
    """Adds the branches `main` that a repository knows, each with its name and its repository. A remote on this machine may
    be a clone with commits of its own, so those that it knows are added too."""
    for main in mains_of(folder):
        found[main if folder == ROOT else f"{main} of {folder}"] = (main, folder)
        place = place_of(folder, main)
        if place and all(place != other for _, other in found.values()):
            add_mains(found, place)


def report():
    """Returns what git says of this checkout."""
    if not (ROOT / ".git").exists():
        return Report(problem=NO_HISTORY)
    try:
        top, is_shallow, commit = git("rev-parse", "--show-toplevel", "--is-shallow-repository", "HEAD").splitlines()
        if Path(top).resolve() != ROOT:
            return Report(problem=NO_HISTORY)
        first_commits = git("rev-list", "--max-parents=0", commit).split()
        found = {}
        add_mains(found, ROOT)
        lacking = [name for name, (main, folder) in found.items() if main not in mains_of(folder, "--contains", commit)]
        return Report("", commit, changes(), is_shallow == "true", tuple(first_commits), tuple(found), tuple(lacking))
    except GitFails as cause:
        return Report(problem=str(cause))


def origin():
    """Returns where the sources are from."""
    return origin_of(report())


def source_folders():
    """Yields the path of each folder of sources, with the names of its files."""
    for top in (top for folder in FOLDERS for top in (ROOT / "crates").glob(f"*/{folder}")):
        yield from ((folder, names) for folder, _, names in os.walk(top))


def source_files():
    """Returns the paths of all sources, in their order."""
    found = [str(ROOT / "crates.txt")]
    found += (os.path.join(folder, name) for folder, names in source_folders() for name in names)
    return [Path(path) for path in sorted(found) if os.path.isfile(path)]


def hash_of_sources():
    """Returns a hash of the names and bytes of all sources."""
    found = hashlib.sha256()
    for path in source_files():
        text = path.read_bytes()
        found.update(f"{path.relative_to(ROOT)} {len(text)}\n".encode())
        found.update(text)
    return found.hexdigest()


def hash_of_file(path):
    """Returns a hash of the bytes of a file."""
    return hashlib.sha256(path.read_bytes()).hexdigest()


def is_newest(program, files):
    """Returns whether a program is there, and none of these files has changed since it was built. Copied ones count as
    changed."""
    if not os.access(program, os.X_OK):
        return False
    built = program.stat().st_mtime_ns
    return all(os.stat(path).st_ctime_ns < built for path in files)


def has_whole_folders():
    """Returns whether each folder of sources of the commit is there. Where git doesn't answer, they count as if."""
    try:
        tops = {tuple(path.split("/")[:3]) for path in committed_sources()}
    except GitFails:
        return True
    return all(ROOT.joinpath(*top).exists() for top in tops)
