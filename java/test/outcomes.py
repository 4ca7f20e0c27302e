#!/usr/bin/env python3
"""Explores the programs of java/test/outcomes: each outcome that is listed has to be found, and no other one.

    outcomes.py [--departures D] [--workers N] [PATTERN]..

A program is called by a main method that throws where the program's output is the outcome that is looked for, or where it is none of
the list. `explore` has to find the first by D departures, 1 if it isn't given, or by 3 that leave the program's own methods; and it
has to cover both without the second. JVMX names the program jvmx. The last line is `N programs, M failed`; the status is 1 where one
failed.
"""
import argparse
import os
import pathlib
import re
import subprocess
import sys
import tempfile

sys.dont_write_bytecode = True
import run  # noqa: E402

TURNS = "200000"
# How many departures leave the program's own methods.
OWN = 3
# The line of a run whose outcome is looked for. The names are those of the adapted program, which jvmx runs here without the tool.
FOUND = re.compile("failing .* uncaught 0 jx/ex/IllegalStateException$")
DRIVER = """\
/** Calls a program, and throws where its output is among some. */
public class Explored {
    /** Keeps what is printed. */
    static class Text extends java.io.OutputStream {
        final StringBuilder text = new StringBuilder();

        @Override
        public void write(int unit) {
            text.append((char) unit);
        }
    }

    public static void main(String[] args) throws Exception {
        Text printed = new Text();
        System.setOut(new java.io.PrintStream(printed));
        %(name)s.main(args);
        String found = printed.text.toString();
        if (%(negation)sjava.util.Arrays.asList(%(outcomes)s).contains(found)) {
            throw new IllegalStateException("found");
        }
    }
}
"""


def literal(text):
    """Returns a text as a constant of Java."""
    return '"%s"' % text.replace("\\", "\\\\").replace('"', '\\"').replace("\n", "\\n")


def explored(arguments, source, outcomes, negation):
    """Explores a program that throws where it has one of the outcomes, or none of them, until it does; returns the last lines."""
    with tempfile.TemporaryDirectory(prefix="jvmx-test-") as folder:
        work = pathlib.Path(folder)
        driver = work / "Explored.java"
        driver.write_text(DRIVER % {"name": source.stem, "negation": negation, "outcomes": ", ".join(map(literal, outcomes))})
        (work / "classes").mkdir()
        words = run.COMPILERS["release8"] + ["-g", "-proc:none", "-nowarn", "-d", str(work / "classes"), str(source), str(driver)]
        done, said = run.TestServer.call("compile", words)
        if not done:
            raise run.Failed("doesn't compile: " + said[:300])
        words = ["tool", "adapt", "-o", str(work / "adapted"), "--main", "Explored", "--sched", "stay:", str(work / "classes")]
        done, said = run.TestServer.call("adapt", words)
        if not done:
            raise run.Failed("adapt: " + said[:400])
        files = [str(file) for file in sorted((work / "adapted").rglob("*.class"))]
        lines = []
        for scope in (["--departures", str(arguments.departures)], ["--departures", str(OWN), "--within", source.stem + ".*"]):
            words = [arguments.jvmx, "explore", "--entry", "jx/gen/Main", "--max", TURNS, "--runs", "10000000", *scope]
            words += ["--workers", arguments.workers] if arguments.workers else []
            _, output, error = run.call("run", words + files, work)
            lines.append((output.decode().splitlines() or [error.decode()])[-1])
            if FOUND.match(lines[-1]):
                break
        return lines


def check(arguments, source):
    """Returns what is wrong with a program's outcomes."""
    outcomes = run.outcomes(source)
    faults = []
    for outcome in outcomes:
        lines = explored(arguments, source, [outcome], "")
        if not FOUND.match(lines[-1]):
            faults.append("%r isn't found: %s" % (outcome, ", ".join(lines)))
    lines = explored(arguments, source, outcomes, "!")
    if lines != ["covered %d" % arguments.departures, "covered %d within %s.*" % (OWN, source.stem)]:
        faults.append("there is another outcome: " + lines[-1])
    return faults


def main():
    """Explores all programs."""
    parser = argparse.ArgumentParser()
    parser.add_argument("--departures", type=int, default=1)
    parser.add_argument("--workers")
    parser.add_argument("patterns", nargs="*")
    arguments = parser.parse_args()
    arguments.jvmx = os.environ.get("JVMX", str(run.REPOSITORY / "jvmx"))
    subprocess.run([str(run.TOOL), "--help"], stdout=subprocess.DEVNULL, check=True)
    chosen = [s for s in run.sources(["java/test/outcomes/"]) if not arguments.patterns or any(p in str(s) for p in arguments.patterns)]
    failed = 0
    for source in chosen:
        before = run.TIMES.sum()
        faults = check(arguments, source)
        failed += bool(faults)
        print("%s: %s, %.0f processor seconds" % (source.stem, "; ".join(faults) or "as listed", run.TIMES.sum() - before), flush=True)
    print(run.TIMES)
    print("%d programs, %d failed" % (len(chosen), failed))
    sys.exit(1 if failed else 0)


if __name__ == "__main__":
    main()
