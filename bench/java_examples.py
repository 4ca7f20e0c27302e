#!/usr/bin/env python3
"""Compiles the programs of examples/java by ecj, Debian's package, over the stubs of bench/stubs, so that a use of what
isn't built in is an error; then runs them by java and writes what they print.

    bench/java_examples.py

A program is a source with a `main`. Its classes go to examples/java/45, 48, 49 and 50, folders named by the version of
their class files; what it prints goes beside its source. A comment at the source's top may say `Majors:` (only these
versions), `Needs:` (what it uses beyond plain instructions and calls, which is compared with what the class files hold),
and `Apart:`, whose main class is compiled while static fields aren't final, so that it reads them as it runs.
"""
import re
import shutil
import subprocess
import sys
import tempfile
from pathlib import Path

sys.dont_write_bytecode = True
sys.path.insert(0, str(Path(__file__).resolve().parent))
import against_java  # noqa: E402
import java_class  # noqa: E402
import profile  # noqa: E402

HERE = Path(__file__).resolve().parent
FOLDER = HERE.parent / "examples" / "java"
# Programs for ./jvmx-java, which aren't in the profile.
ORDINARY = FOLDER / "ordinary"
# The language and the target of each version, as options of ecj.
VERSIONS = {45: ("1.3", "1.1"), 48: ("1.4", "1.4"), 49: ("1.5", "1.5"), 50: ("1.6", "1.6")}


def ecj(sources, out, major, boot):
    """Unused locals are kept, and nothing is written for debuggers."""
    source, target = VERSIONS[major]
    options = ["-proc:none", "-nowarn", "-g:none", "-preserveAllLocals", "-encoding", "UTF-8"]
    words = [*options, "-source", source, "-target", target, "-bootclasspath", boot, "-d", out, *sources]
    if subprocess.run(["ecj", *words]).returncode != 0:
        sys.exit("ecj refused")


def stubs(folder):
    """The compiled stubs, for which no other class is there."""
    none, boot = folder / "none", folder / "boot"
    none.mkdir()
    ecj([HERE / "stubs"], boot, 49, none)
    return boot


def tag(source, name):
    found = re.search(rf"(?m)^// {name}: (.*)$", source.read_text())
    return found.group(1) if found else ""


def sources(major):
    """Those that are compiled to a version."""
    every = " ".join(map(str, VERSIONS))
    found = [path for path in sorted(FOLDER.rglob("*.java")) if ORDINARY not in path.parents]
    return [path for path in found if str(major) in (tag(path, "Majors") or every)]


def without_final(source, folder):
    copy = folder / source.name
    copy.write_text(source.read_text().replace("static final ", "static "))
    return copy


def compile_version(major, boot, folder):
    out = FOLDER / str(major)
    shutil.rmtree(out, ignore_errors=True)
    ecj(sources(major), out, major, boot)
    for source in sources(major):
        if tag(source, "Apart"):
            apart = folder / str(major)
            ecj([without_final(source, folder)], apart, major, boot)
            shutil.copy(apart / f"{source.stem}.class", out)
    return [java_class.ClassFile(path) for path in sorted(out.rglob("*.class"))]


def check(major, classes):
    """The classes against the profile and against what their sources say; and the programs' outputs."""
    seen = profile.Profile(classes)
    faults = [f"{one.path}: {fault}" for one in classes for fault in seen.faults(one)]
    for main in filter(java_class.ClassFile.has_main, classes):
        source = FOLDER / f"{main.name}.java"
        needs = ", ".join(profile.needs(seen, java_class.program(main, seen.classes)))
        if needs != tag(source, "Needs"):
            faults.append(f"{main.path}: needs {needs or 'nothing more'}")
        printed = against_java.by_java(main).printed
        expected = source.with_suffix(".txt")
        if major == max(VERSIONS):
            expected.write_bytes(printed)
        elif expected.exists() and expected.read_bytes() != printed:
            faults.append(f"{main.path}: prints otherwise than before")
    return faults


def main():
    faults = []
    with tempfile.TemporaryDirectory() as name:
        folder = Path(name)
        boot = stubs(folder)
        for major in sorted(VERSIONS, reverse=True):
            classes = compile_version(major, boot, folder)
            size = sum(one.path.stat().st_size for one in classes)
            print(f"{major}: {len(classes)} classes, {size} bytes")
            faults += check(major, classes)
    print(*faults, sep="\n", end="\n" if faults else "")
    return 1 if faults else 0


if __name__ == "__main__":
    sys.exit(main())
