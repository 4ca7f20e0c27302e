#!/usr/bin/env python3
"""Tests the names and the lines that ./jvmx-java shows, by a case for each of its commands on the programs of java/test/commands.

The expected texts are what the sources say: in Counter.java the count is read in line 8, by instruction 0 of `add`, and written in
line 9, by its instruction 6; `main` throws in line 20, by its instruction 32. JVMX names the program jvmx. The last line is `N cases`;
the status is 1 where one fails. Words choose cases by their names: run, explain, trace, debug, campaign, explore, shrink, needs, adapt.
"""
import pathlib
import re
import shlex
import subprocess
import sys
import tempfile

HERE = pathlib.Path(__file__).resolve().parent
TOOL = HERE.parent.parent / "jvmx-java"
ADD = "Counter.add.(Ljava/util/function/IntSupplier;)V"
MAIN = "Counter.main.([Ljava/lang/String;)V"
COUNT = "Counter.count.I"
FAILS = "uncaught 0 java/lang/IllegalStateException"
# Names of the adapted program that have one in the source, so that no command may show them.
HIDDEN = re.compile(r"\bjx/(Str|Thr|Sys|Out|Obj|ex/\w+)\b|\$jx\b")
REPORT = """\
Report.main.([Ljava/lang/String;)V @29 (Report.java:24) OutOfProfile d2i (float or double)
Report.mean.(Ljava/util/List;)D @19 (Report.java:13) OutOfProfile i2d (float or double)
Report.mean.(Ljava/util/List;)D @22 (Report.java:13) OutOfProfile i2d (float or double)
Report.mean.(Ljava/util/List;)D @23 (Report.java:13) OutOfProfile ddiv (float or double)
Report.mean.(Ljava/util/List;)D @24 (Report.java:13) OutOfProfile dreturn (float or double)
Report.write.(Ljava/lang/String;)V @0 (Report.java:17) NoClassDefFoundError java/io/FileWriter
Report.write.(Ljava/lang/String;)V @3 (Report.java:17) NoClassDefFoundError java/io/FileWriter
Report.write.(Ljava/lang/String;)V @7 (Report.java:18) NoClassDefFoundError java/io/FileWriter
""".splitlines()


class Failed(Exception):
    """A case that shows something else than the source says."""


def call(words, asked=""):
    """Calls the tool in the folder of the programs, and returns its status and its lines, those of standard error last."""
    done = subprocess.run([str(TOOL), *words], cwd=HERE / "commands", input=asked, capture_output=True, text=True)
    lines = (done.stdout + done.stderr).splitlines()
    for line in lines:
        if HIDDEN.search(line):
            raise Failed("a name that the source doesn't have: " + line)
    return done.returncode, lines


def expect(found, status, lines, patterns):
    """Refuses an answer with another status, or whose lines don't match all patterns in their order."""
    at = 0
    for pattern in patterns:
        while at < len(lines) and not re.search(pattern, lines[at]):
            at += 1
        if at == len(lines):
            raise Failed("no line matches %r in its place, of:\n  %s" % (pattern, "\n  ".join(lines[:60])))
    if found != status:
        raise Failed("the status is %d, where it has to be %d" % (found, status))


def exact(*texts):
    """Returns patterns that match lines which have these texts."""
    return [re.escape(text) for text in texts]


def failing_schedule():
    """Returns the schedule with one departure under which the program fails."""
    status, lines = call(["explore", "--departures", "1", "--within", "Counter.add", "--spec", "Counter.spec", "Counter.java"])
    expect(status, 1, lines, [r"^departures 0 runs 1 cycle 0 uncaught 0", r"^failing stay:\d+=2 cycle at .*" + re.escape(FAILS)])
    return next(line.split()[1] for line in lines if line.startswith("failing "))


def explore(schedule):
    """The schedule is found without --within too, and the commands of the summary run as they are printed."""
    status, lines = call(["explore", "--departures", "1", "--spec", "Counter.spec", "--summary", "Counter.java"])
    run = "./jvmx-java run --main Counter --sched %s --max 100000 --spec Counter.spec Counter.java" % schedule
    expect(status, 1, lines, exact("failing %s cycle at" % schedule, run, "./jvmx-java debug --main Counter --sched " + schedule))
    status, lines = call(shlex.split(run)[1:])
    expect(status, 1, lines, ["^" + FAILS, r"^cycle at "])
    expect(status, 1, lines, [r"^Exception in thread \"main\" java.lang.IllegalStateException: count 1$"])


def run(_):
    """The default schedule loses nothing."""
    status, lines = call(["run", "Counter.java"])
    expect(status, 0, lines, ["^count 2$", r"^status Finished turns \d+$"])


def explain(schedule):
    """The events of the cycle and the exception have their places and lines."""
    status, lines = call(["run", "--explain", "--sched", schedule, "--spec", "Counter.spec", "Counter.java"])
    expect(status, 1, lines, exact(
        "thread 1 in " + ADD, "thread 2 in " + ADD, "rd 1 " + COUNT, "wr 2 " + COUNT, "wr 1 " + COUNT,
        "at %s @0 (Counter.java:8)" % ADD, "at %s @6 (Counter.java:9)" % ADD, "at %s @32 (Counter.java:20)" % MAIN))


def trace(schedule):
    """The events have the names of the source."""
    status, lines = call(["trace", "--sched", schedule, "Counter.java"])
    expect(status, 1, lines, exact(
        "enter 0 " + MAIN, "enter 1 " + ADD, "rd 1 " + COUNT, "enter 2 " + ADD, "rd 2 " + COUNT, "enter 2 Counter.lambda$main$2.()I",
        "wr 2 " + COUNT, "exit 2 " + ADD, "wr 1 " + COUNT, "exit 1 " + ADD))


def debug(schedule):
    """A breakpoint is set by the names of the source, and the frames have them."""
    asked = "break %s 6\ncontinue\nframes 2\ncontinue\nframes 1\nclass Counter\n" % ADD
    status, lines = call(["debug", "--sched", schedule, "Counter.java"], asked)
    expect(status, 0, lines, exact(
        "breakpoint 1 at %s @6" % ADD, "Running, thread 2 Ran", ADD + " @6", "Counter.lambda$main$3.()V @1", "java/lang/Thread.run.()V",
        "Running, thread 2 Ended", ADD + " @6", "Counter.lambda$main$1.()V @1", COUNT + " = I:1"))


def campaign(_):
    """The summary has the commands of the tool."""
    status, lines = call(["campaign", "--jobs", "4", "--spec", "Rounds.spec", "--summary", "Rounds.java"])
    expect(status, 1, lines, [
        r"^job 0 cycle at", r"^jobs 4 atomic 0 cycle 4$", r"^  \./jvmx-java run --main Rounds --sched seed:0:0 .*--spec Rounds\.spec Rounds\.java$",
        r"^  \./jvmx-java debug --main Rounds --sched seed:0:0 .*Rounds\.java$"])


def shrink(schedule):
    """Departures that aren't needed are left out."""
    position = int(schedule[len("stay:"):].split("=")[0])
    longer = "%s,%d=1,%d=2" % (schedule, position + 400, position + 500)
    status, lines = call(["shrink", "--sched", longer, "--spec", "Counter.spec", "Counter.java"])
    expect(status, 0, lines, [r"^failing stay:\d+=\d cycle at .*" + re.escape(FAILS)])


def needs(_):
    """What isn't there is named with its place and line, and the program isn't run."""
    status, lines = call(["needs", "Report.java"])
    expect(status, 1, lines, ["^" + re.escape(line) + "$" for line in REPORT])
    status, lines = call(["run", "Report.java"])
    expect(status, 2, lines, ["^" + re.escape(line) + "$" for line in REPORT])


def adapt(_):
    """The class files keep their names."""
    with tempfile.TemporaryDirectory() as folder:
        status, lines = call(["adapt", "-o", folder + "/made", "Counter.java"])
        found = sorted(str(file.relative_to(folder + "/made")) for file in pathlib.Path(folder).rglob("*.class"))
        expect(status, 0, lines + found, [r"^Counter\$\$Lambda\$1\.class$", r"^Counter\.class$", r"^jx/gen/Main\.class$"])


def main():
    """Runs all cases."""
    failed = 0
    schedule = failing_schedule()
    cases = [run, explain, trace, debug, campaign, explore, shrink, needs, adapt]
    chosen = [case for case in cases if not sys.argv[1:] or case.__name__ in sys.argv[1:]]
    for case in chosen:
        try:
            case(schedule)
        except Failed as fault:
            failed += 1
            print("%s: %s" % (case.__name__, fault), flush=True)
    print("%d cases, %d failed" % (len(chosen) + 1, failed))
    sys.exit(1 if failed else 0)


if __name__ == "__main__":
    main()
