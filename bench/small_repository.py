"""Makes a small repository that has the launcher, copies of it, and a kit that builds nothing, for launcher_tests.py."""
import os
import shutil
import subprocess
import sys
from pathlib import Path

ROOT = Path(__file__).resolve().parent.parent
sys.path.insert(0, str(ROOT))
from jvmx_build.checkout import FIRST_COMMIT  # noqa: E402
from jvmx_build.quick import LIBRARIES, NEEDED  # noqa: E402

# The programs that `jvmx` and the launcher start, besides python3 and git.
TOOLS = ("bash", "env", "find", "readlink", "dirname", "sed")
# A kit's `rt`. With a folder for them, it leaves its number there and stays; else it refuses all sources.
RT = f"""#!{sys.executable}
import os, sys, time
if "NUMBERS" in os.environ:
    open(os.path.join(os.environ["NUMBERS"], str(os.getpid())), "w").close()
    time.sleep(60)
sys.exit(1)
"""
# A program that says that it runs.
PROGRAM = "#!/bin/sh\necho runs\n"
IDENTITY = {"GIT_AUTHOR_NAME": "a", "GIT_AUTHOR_EMAIL": "a@b", "GIT_COMMITTER_NAME": "a", "GIT_COMMITTER_EMAIL": "a@b"}
FILES = {
    ".gitignore": "out/\n",
    "HANDLES": "",
    "crates.txt": "classes:\njvmx: classes\n",
    "crates/classes/src/look.rt": "pub fn look() {}\n",
    "crates/classes/src/found.rt": "pub fn found() {}\n",
    "crates/classes/specs/Lib.antt": "look\n",
    "crates/classes/proofs/Lib.antt": "look\n",
    "crates/jvmx/src/main.rt": "fn main() {}\n",
}


def write(path, text, mode=0o644):
    """Writes a file, and its folder before it."""
    path.parent.mkdir(parents=True, exist_ok=True)
    path.write_text(text)
    path.chmod(mode)


class Place:
    """A folder with the repository `main`, whose branch `main` is the main line, with tools, git and a kit."""

    def __init__(self, folder):
        """Names what a folder has."""
        self.folder, self.main, self.kit = folder, folder / "main", folder / "kit"
        self.on_path = {"tools": folder / "tools", "git": folder / "git", "rt": self.kit / "bin"}

    def make(self):
        """Makes all of it in an empty folder."""
        write(self.on_path["tools"] / "python3", f'#!/bin/sh\nexec {sys.executable} "$@"\n', 0o755)
        for name in TOOLS:
            (self.on_path["tools"] / name).symlink_to(shutil.which(name))
        for name in (*NEEDED, *LIBRARIES):
            write(self.kit / name, RT if name == "bin/rt" else "", 0o755)
        self.on_path["git"].mkdir()
        (self.on_path["git"] / "git").symlink_to(shutil.which("git"))
        self.main.mkdir()
        self.begin(self.main)
        self.git(self.main, "commit", "-q", "--allow-empty", "-m", "first")
        self.write_sources(self.main, self.git(self.main, "rev-parse", "HEAD"))
        self.commit(self.main)

    def copy(self, folder):
        """Copies all of it to a folder that isn't there yet, and returns the copy."""
        shutil.copytree(self.folder, folder, symlinks=True)
        return Place(folder)

    def begin(self, folder):
        """Makes a folder a repository without a commit."""
        self.git(folder, "init", "-q")
        self.git(folder, "symbolic-ref", "HEAD", "refs/heads/main")

    def write_sources(self, folder, first_commit):
        """Writes the launcher, as that of a repository with this first commit, and sources."""
        shutil.copy(ROOT / "launcher.py", folder)
        shutil.copy(ROOT / "jvmx", folder)
        shutil.copytree(ROOT / "jvmx_build", folder / "jvmx_build", ignore=shutil.ignore_patterns("__pycache__"))
        checkout = folder / "jvmx_build" / "checkout.py"
        checkout.write_text(checkout.read_text().replace(FIRST_COMMIT, first_commit))
        for name, text in FILES.items():
            write(folder / name, text)

    def git(self, folder, *words):
        """Runs git in a folder, and returns what it prints."""
        variables = {**self.variables(), "GIT_CONFIG_NOSYSTEM": "1", **IDENTITY}
        ran = subprocess.run(["git", *words], cwd=folder, env=variables, stdout=subprocess.PIPE, check=True)
        return ran.stdout.decode().strip()

    def commit(self, folder):
        """Commits all files of a repository."""
        self.git(folder, "add", "--all")
        self.git(folder, "commit", "-q", "--allow-empty", "-m", "more")

    def own_commit(self, folder):
        """Commits a change of a source."""
        write(folder / "crates/classes/src/look.rt", "pub fn look() { own() }\n")
        self.commit(folder)

    def clone(self, source=None, *words):
        """Clones the repository, or another source, and returns the place of the clone."""
        made = self.folder / f"clone{len(list(self.folder.glob('clone*')))}"
        self.git(self.folder, "clone", "-q", *words, str(source or self.main), str(made))
        return made

    def variables(self, without=(), **more):
        """Returns the environment of a user with the kit and all tools, but for some: "rt", "git"."""
        path = os.pathsep.join(str(folder) for name, folder in self.on_path.items() if name not in without)
        return {"PATH": path, "HOME": str(self.folder), **more}

    def run(self, folder, words=("./jvmx", "-V"), without=(), **more):
        """Runs a command in a folder. Returns its status, and what it wrote on both outputs."""
        streams = {"stdin": subprocess.DEVNULL, "stdout": subprocess.PIPE, "stderr": subprocess.PIPE}
        ran = subprocess.run(words, cwd=folder, env=self.variables(without, **more), universal_newlines=True, **streams)
        return ran.returncode, ran.stdout, ran.stderr
