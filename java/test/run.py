#!/usr/bin/env python3
"""Compares what ordinary Java programs print on jvmx with what `java` prints.

Each program is a .java file below programs/ whose first public class, or else the class of the file's name, has the main method. It is
compiled by several compilers; the output of `java` is the expected one. The rewritten program then runs under several schedules.
Programs below outcomes/ have more than one outcome: the file NAME.outcomes lists those that are allowed, separated by lines of `--`.
The programs of examples/java/ordinary are run too, but those with bugs.

    run.py [-j N] [--compilers release8,newest,ecj] [--schedules few|all|N] [--no-verify] [--times] [PATTERN]..

`--schedules N` takes N of the 13 schedules for each program and compiler, other ones from program to program. JVMX names the program
jvmx. `--times` prints the processor seconds of each program. The last lines are the processor seconds, and `N passed, M failed`; the
status is 1 where one failed.
"""
import argparse
import concurrent.futures
import os
import pathlib
import re
import shutil
import subprocess
import sys
import tempfile
import threading

HERE = pathlib.Path(__file__).resolve().parent
REPOSITORY = HERE.parent.parent
TOOL = REPOSITORY / "jvmx-java"
EXAMPLES = REPOSITORY / "examples" / "java" / "ordinary"
# The examples with bugs, which print different things.
FAULTY = ["Seats", "Transfers"]
SCHEDULES = ["rr:1", "rr:7", "rr:100"] + ["seed:%d:%d" % (n, 2 * n + 1) for n in range(10)]
FEW = ["rr:1", "rr:100", "seed:3:7"]
TURNS = "100000000"
PATIENCE = 900
RUNS_OF_JAVA = 4
TICKS = os.sysconf("SC_CLK_TCK")
COMPILERS = {
    "release8": ["javac", "--release", "8", "-Xlint:-options"],
    "newest": ["javac", "--release", "17"],
    "ecj": ["ecj", "-source", "1.5", "-target", "1.5"],
}
ECJ_JAR = "/usr/share/java/eclipse-jdt-core.jar"
ASM = [os.environ.get("ASM_JAR", "/usr/share/java/asm.jar")]
ASM += [ASM[0].replace(".jar", "-%s.jar" % part) for part in ("tree", "commons", "util", "analysis")]
JVM = ["java", "-Xshare:auto", "-XX:TieredStopAtLevel=1", "-XX:+UseSerialGC", "-XX:ActiveProcessorCount=1"]
JAVA = ["java", "-Xshare:auto", "-XX:TieredStopAtLevel=1", "-Dfile.encoding=UTF-8", "-Dsun.stdout.encoding=UTF-8"]
ESCAPE = re.compile("\x10(?:e(.)|u([0-9a-f]{4})|v([0-9a-f]{4})|(p))", re.DOTALL)


class Failed(Exception):
    """A step that ended otherwise than it has to."""


class Times:
    """The processor seconds of the steps, of all programs."""

    def __init__(self):
        self.lock = threading.Lock()
        self.steps = {"compile": 0.0, "java": 0.0, "adapt": 0.0, "run": 0.0}

    def add(self, step, seconds):
        """Adds what a step took."""
        with self.lock:
            self.steps[step] += seconds

    def sum(self):
        """Returns the sum over all steps."""
        with self.lock:
            return sum(self.steps.values())

    def __str__(self):
        parts = ", ".join("%s %.0f" % step for step in self.steps.items())
        return "%.0f processor seconds: %s" % (self.sum(), parts)


TIMES = Times()


def call(step, words, work):
    """Runs a command and returns its status and its two outputs, which go through files of a folder."""
    output, error = work / "output", work / "error"
    with open(output, "wb") as out, open(error, "wb") as err:
        process = subprocess.Popen(words, stdin=subprocess.DEVNULL, stdout=out, stderr=err)
        timer = threading.Timer(PATIENCE, process.kill)
        timer.start()
        _, status, usage = os.wait4(process.pid, 0)
        timer.cancel()
        process.returncode = os.waitstatus_to_exitcode(status)
    TIMES.add(step, usage.ru_utime + usage.ru_stime)
    if process.returncode == -9:
        raise Failed("%s: more than %d seconds" % (words[0], PATIENCE))
    return process.returncode, output.read_bytes(), error.read_bytes()


def main_class(source):
    """Returns the name of the class with the main method."""
    text = source.read_text()
    package = re.search(r"^package ([\w.]+);", text, re.MULTILINE)
    return (package.group(1) + "." if package else "") + source.stem


class TestServer:
    """A Java program that compiles and adapts one program after the other; each thread of the runner has its own."""

    own = threading.local()

    def __init__(self):
        parts = ":".join([ECJ_JAR, str(REPOSITORY / "java/out/tool.jar"), *ASM])
        environment = dict(os.environ, JVMX_HOME=str(REPOSITORY))
        words = JVM + ["-cp", parts, str(HERE / "TestServer.java")]
        self.process = subprocess.Popen(words, stdin=subprocess.PIPE, stdout=subprocess.PIPE, text=True, env=environment)
        self.before = 0.0

    def seconds(self):
        """Returns the processor seconds since the last call."""
        fields = pathlib.Path("/proc/%d/stat" % self.process.pid).read_text().rsplit(")", 1)[1].split()
        now = (int(fields[11]) + int(fields[12])) / TICKS
        passed, self.before = now - self.before, now
        return passed

    @classmethod
    def call(cls, step, words):
        """Runs a compiler or the tool by these words, and returns whether that worked and what it said."""
        if not hasattr(cls.own, "server"):
            cls.own.server = cls()
        server = cls.own.server
        server.process.stdin.write("\t".join(words) + "\n")
        server.process.stdin.flush()
        answer = server.process.stdout.readline()
        if not answer:
            raise Failed("the test server has ended")
        TIMES.add(step, server.seconds())
        return answer.startswith("ok"), answer


def compile_program(source, compiler, target):
    """Compiles a source, and returns whether that works with this compiler."""
    target.mkdir()
    words = COMPILERS[compiler] + ["-g", "-proc:none", "-nowarn", "-d", str(target)] + class_path(jars(source))
    companions = sorted(source.parent.glob(source.stem + "_*.java"))
    done, said = TestServer.call("compile", words + [str(source)] + [str(c) for c in companions])
    if not done and compiler == "release8":
        raise Failed("doesn't compile: " + said[:300])
    return done


class Expected:
    """What `java` prints for each program. The class files of the first compiler are run; all have to print the same."""

    def __init__(self):
        self.lock = threading.Lock()
        self.texts = {}

    def outputs(self, source, classes, work, runs=1):
        """Returns what `java` has printed. It is run until it was so often: a busy machine may change the order of its sleeping threads."""
        with self.lock:
            texts = self.texts.setdefault(source, [])
        while len(texts) < runs:
            words = JAVA + flags(source) + class_path([str(classes)] + jars(source)) + [main_class(source)]
            status, output, error = call("java", words, work)
            if status not in (0, 1):
                raise Failed("java ends with %d: %s" % (status, error.decode()[:300]))
            texts.append(output.decode("utf-8", "replace"))
        return texts


EXPECTED = Expected()


def jars(source):
    """Returns the jars that a program's first line asks for, as in `// classpath: /usr/share/java/a.jar`."""
    first = source.read_text().split("\n", 1)[0]
    return first[len("// classpath:"):].split() if first.startswith("// classpath:") else []


def class_path(parts):
    """Returns the words for a class path, none for an empty one."""
    return ["-cp", ":".join(parts)] if parts else []


def flags(source):
    """Returns the words for `java` and the tool that a program's first line asks for, as in `// flags: -ea`."""
    first = source.read_text().split("\n", 1)[0]
    return first[len("// flags:"):].split() if first.startswith("// flags:") else []


def decoded(output):
    """Returns the text of standard output: without what goes to standard error, with all units."""
    def unit(match):
        if match.group(2):
            return chr(int(match.group(2), 16))
        return "\x10" if match.group(4) else ""
    text = ESCAPE.sub(unit, output.decode("utf-8", "surrogatepass"))
    return text.encode("utf-16", "surrogatepass").decode("utf-16", "replace")


def adapt(arguments, source, classes, target):
    """Rewrites a program, and returns its class files."""
    how = ["--anyway"] if jars(source) else ["--verify"] * arguments.verify
    words = ["adapt", "-o", str(target)] + how + flags(source) + ["--main", main_class(source), str(classes)] + jars(source)
    done, said = TestServer.call("adapt", ["tool"] + words)
    if not done:
        raise Failed("adapt: " + said[:400])
    return [str(p) for p in sorted(target.rglob("*.class"))]


def run(arguments, files, schedule, work):
    """Runs a rewritten program under a schedule, and returns what it prints and how it ended."""
    words = [arguments.jvmx, "run", "--max", TURNS, "--entry", "jx/gen/Main", "--sched", schedule]
    _, output, error = call("run", words + files, work)
    return decoded(output), error.decode().strip()


def difference(expected, found):
    """Returns the first line in which two texts differ."""
    one, two = expected.split("\n"), found.split("\n")
    for n in range(max(len(one), len(two))):
        a = one[n] if n < len(one) else "(end)"
        b = two[n] if n < len(two) else "(end)"
        if a != b:
            return "line %d: java %r, jvmx %r" % (n + 1, a[:120], b[:120])
    return "no line"


def check_program(arguments, number, source, compiler):
    """Runs one program by one compiler, and returns the failures."""
    work = pathlib.Path(tempfile.mkdtemp(prefix="jvmx-test-"))
    try:
        if not compile_program(source, compiler, work / "classes"):
            return None
        allowed = outcomes(source) or EXPECTED.outputs(source, work / "classes", work)
        files = adapt(arguments, source, work / "classes", work / "adapted")
        failures = []
        for schedule in schedules(arguments, number, source):
            found, error = run(arguments, files, schedule, work)
            if found not in allowed and not outcomes(source):
                allowed = EXPECTED.outputs(source, work / "classes", work, RUNS_OF_JAVA)
            if found not in allowed:
                failures.append("%s: %s; %s" % (schedule, difference(allowed[0], found), error[-150:]))
            elif "status Finished" not in error and "status Deadlocked" not in allowed[0]:
                failures.append("%s: %s" % (schedule, error[-200:]))
        return failures
    except Failed as failed:
        return [str(failed)]
    finally:
        shutil.rmtree(work, ignore_errors=True)


def schedules(arguments, number, source):
    """Returns the schedules of a program and a compiler: one for those that compare the library, which have one thread."""
    if source.parent.name == "library":
        return [SCHEDULES[number % len(SCHEDULES)]]
    if arguments.schedules in ("few", "all"):
        return FEW if arguments.schedules == "few" else SCHEDULES
    count = int(arguments.schedules)
    return [SCHEDULES[(number * count + n) % len(SCHEDULES)] for n in range(count)]


def outcomes(source):
    """Returns the outputs that a program may have, or nothing where it has one."""
    listed = source.with_suffix(".outcomes")
    return [o + "\n" for o in listed.read_text().rstrip("\n").split("\n--\n")] if listed.exists() else None


def sources(patterns):
    """Returns the programs whose path in the repository has one of the patterns."""
    folders = [HERE / name for name in ("programs", "outcomes", "library", "jars")] + [EXAMPLES]
    found = sorted(
        p for folder in folders for p in folder.rglob("*.java")
        if "_" not in p.stem and p.stem not in FAULTY and all(pathlib.Path(j).exists() for j in jars(p)))
    return [p for p in found if not patterns or any(x in str(p.relative_to(REPOSITORY)) for x in patterns)]


def parse_arguments():
    """Reads the words of the command line."""
    parser = argparse.ArgumentParser()
    parser.add_argument("-j", type=int, default=2, help="how many processes at a time")
    parser.add_argument("--compilers", default="release8,newest,ecj")
    parser.add_argument("--schedules", default="all", help="few, all, or how many for each program and compiler")
    parser.add_argument("--no-verify", dest="verify", action="store_false", help="don't verify the classes that the tool writes")
    parser.add_argument("--times", action="store_true", help="name each program that is done, and its processor seconds, on standard error")
    parser.add_argument("patterns", nargs="*")
    arguments = parser.parse_args()
    arguments.jvmx = os.environ.get("JVMX", str(REPOSITORY / "jvmx"))
    return arguments


def missing(compilers):
    """Returns the Debian packages that the tests need and that aren't installed."""
    wanted = {"openjdk-17-jdk-headless": shutil.which("javac"), "libasm-java": pathlib.Path(ASM[0]).exists()}
    if "ecj" in compilers:
        wanted["ecj"] = shutil.which("ecj") and pathlib.Path(ECJ_JAR).exists()
    return [package for package, found in wanted.items() if not found]


def main():
    """Runs all programs, and prints the failures and the counts."""
    arguments = parse_arguments()
    compilers = arguments.compilers.split(",")
    if missing(compilers):
        sys.exit("java/test/run.py: not installed: " + " ".join(missing(compilers)))
    subprocess.run([str(TOOL), "--help"], stdout=subprocess.DEVNULL, check=True)
    work = [(s, c) for s in sources(arguments.patterns) for c in compilers]
    passed = failed = skipped = 0
    with concurrent.futures.ThreadPoolExecutor(arguments.j) as pool:
        running = {pool.submit(check_program, arguments, n, *w): w for n, w in enumerate(work)}
        for done in concurrent.futures.as_completed(running):
            (source, compiler), failures = running[done], done.result()
            if failures is None:
                skipped += 1
            elif failures:
                failed += 1
                print("%s (%s): %s" % (source.relative_to(REPOSITORY), compiler, "\n    ".join(failures[:3])), flush=True)
            else:
                passed += 1
            if arguments.times:
                print("%d of %d" % (passed + failed + skipped, len(work)), source.stem, compiler, TIMES, file=sys.stderr, flush=True)
    if skipped:
        print("%d not compiled: their source needs more than that compiler has" % skipped)
    print(TIMES)
    print("%d passed, %d failed" % (passed, failed))
    sys.exit(1 if failed else 0)


if __name__ == "__main__":
    main()
