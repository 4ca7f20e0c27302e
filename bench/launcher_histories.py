"""Makes repositories of different histories and sources, for launcher_tests.py: which of them has what the gate proved.

Each function makes a folder, and returns it and how the line begins that the launcher says there before a build.
"""
import shutil

from small_repository import write

# A source of the small repository.
LOOK = "crates/classes/src/look.rt"
# How the line begins where the gate proved the sources, where it didn't, and where that can't be known.
PROVED = "jvmx: building the program without a new proof, in two to three minutes: the gate proved these sources (commit "
OTHERS = "jvmx: the gate didn't prove these sources: "
UNKNOWN = "jvmx: it can't be known whether the gate proved these sources: "


def a_clone(place):
    """a clone"""
    return place.clone(), PROVED


def an_old_commit(place):
    """an older commit of main, in a clone"""
    old = place.git(place.main, "rev-parse", "--short=8", "HEAD")
    place.own_commit(place.main)
    clone = place.clone()
    place.git(clone, "checkout", "-q", old)
    return clone, f"{PROVED}{old} on origin/main)"


def a_worktree(place):
    """a second folder of a clone"""
    place.git(place.clone(), "worktree", "add", "-q", "../second", "HEAD")
    return place.folder / "second", PROVED


def no_remote(place):
    """the repository without a remote"""
    return place.main, UNKNOWN


def an_archive(place):
    """an archive"""
    shutil.rmtree(place.main / ".git")
    return place.main, UNKNOWN


def an_archive_in_a_clone(place):
    """an archive in a folder of another repository, with an empty folder .git"""
    inner = place.clone() / "inner"
    shutil.copytree(place.main, inner)
    shutil.rmtree(inner / ".git")
    (inner / ".git").mkdir()
    return inner, UNKNOWN


def a_new_repository(place):
    """a new repository of the same sources, which its own remote has"""
    shutil.rmtree(place.main / ".git")
    place.begin(place.main)
    place.commit(place.main)
    return place.clone(), UNKNOWN


def a_shallow_clone(place):
    """a clone without older commits"""
    return place.clone(f"file://{place.main}", "--depth", "1"), UNKNOWN


def a_broken_repository(place):
    """a repository that git doesn't read"""
    clone = place.clone()
    (clone / ".git" / "HEAD").write_text("nonsense\n")
    return clone, UNKNOWN


def an_own_commit(place):
    """a commit of one's own"""
    clone = place.clone()
    place.own_commit(clone)
    return clone, OTHERS


def an_own_commit_elsewhere(place):
    """a commit of one's own, on the branch main of a second remote"""
    clone, fork = place.clone(), place.clone(None, "--bare")
    place.own_commit(clone)
    place.git(clone, "remote", "add", "fork", str(fork))
    place.git(clone, "push", "-q", "fork", "main")
    return clone, OTHERS


def an_own_commit_on_another_branch(place):
    """a commit of one's own, on a branch of the remote whose name ends in main"""
    clone = place.clone()
    place.own_commit(clone)
    place.git(clone, "push", "-q", "origin", "main:feature/main")
    place.git(clone, "update-ref", "-d", "refs/remotes/origin/main")
    return clone, UNKNOWN


def an_own_commit_cloned(place):
    """a clone of a clone with a commit of one's own"""
    clone = place.clone()
    place.own_commit(clone)
    return place.clone(clone), OTHERS


def a_clone_of_a_clone(place):
    """a clone of a clone"""
    return place.clone(place.clone()), PROVED


def a_deleted_source(place):
    """a deleted source"""
    clone = place.clone()
    (clone / LOOK).unlink()
    return clone, f"{OTHERS}{LOOK} is deleted, since commit "


def an_edited_source(place):
    """an edited source"""
    clone = place.clone()
    write(clone / LOOK, "edited\n")
    return clone, f"{OTHERS}{LOOK} is edited, since commit "


def an_unseen_edit(place):
    """an edited source that git was asked not to look at"""
    clone = place.clone()
    place.git(clone, "update-index", "--assume-unchanged", LOOK)
    write(clone / LOOK, "edited\n")
    return clone, OTHERS


def an_added_source(place):
    """an added source"""
    clone = place.clone()
    write(clone / "crates/other/specs/Lib.antt", "")
    return clone, f"{OTHERS}crates/other/specs/Lib.antt is added, since commit "


def an_ignored_source(place):
    """an added source that git was asked to ignore"""
    clone = place.clone()
    write(clone / "crates/classes/src/out/more.rt", "")
    return clone, OTHERS


def an_edited_list(place):
    """an edited crates.txt, staged"""
    clone = place.clone()
    write(clone / "crates.txt", "jvmx: classes\nclasses:\n")
    place.git(clone, "add", "crates.txt")
    return clone, OTHERS


def a_renamed_source(place):
    """a source with the name of a deleted one"""
    clone = place.clone()
    (clone / LOOK).rename(clone / "crates/classes/src/other.rt")
    return clone, OTHERS


def a_replaced_commit(place):
    """a commit that git was asked to replace by another"""
    clone = place.clone()
    old = place.git(clone, "rev-parse", "HEAD")
    place.own_commit(clone)
    place.git(clone, "replace", old, "HEAD")
    place.git(clone, "update-ref", "HEAD", old)
    return clone, OTHERS


HISTORIES = [
    a_clone, an_old_commit, a_worktree, a_clone_of_a_clone, no_remote, an_archive, an_archive_in_a_clone, a_new_repository,
    a_shallow_clone, a_broken_repository, an_own_commit, an_own_commit_elsewhere, an_own_commit_on_another_branch,
    an_own_commit_cloned, a_deleted_source, an_edited_source, an_unseen_edit, an_added_source, an_ignored_source, an_edited_list,
    a_renamed_source, a_replaced_commit,
]  # fmt: skip
