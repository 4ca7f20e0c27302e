"""Reads a run, state by state, from a session of `jvmx debug`."""
import re
import subprocess
import sys
import threading

MOST_ELEMENTS = 256      # elements of an array that are kept
MOST_TEXT = 1000         # units of a text that are kept


class Program:
    """The jvmx program that is called."""

    def __init__(self, path):
        self.path = path

    def call(self, words, stdin=None):
        """Returns the exit status, standard output, and standard error as a text."""
        p = subprocess.run([self.path] + words, input=stdin, stdout=subprocess.PIPE, stderr=subprocess.PIPE)
        return p.returncode, p.stdout, p.stderr.decode("utf-8", "replace")

    def debug(self, words, commands):
        """Returns the lines that a session answers."""
        _, out, _ = self.call(["debug"] + words, ("\n".join(commands) + "\n").encode())
        return out.decode().splitlines()


def fail(text):
    sys.stderr.write("collect: %s\n" % text)
    sys.exit(2)


def value(word):
    """Returns a value of the debugger as JSON has it: an int is a number, null is null, another is a string."""
    if word == "null":
        return None
    if word.startswith("I:"):
        return int(word[2:])
    if word[:2] in ("J:", "R:"):
        return word[0] + word[2:]
    return word                                   # "+", "-", "ret:i"


def cut_text(text):
    """Cuts an escaped text to MOST_TEXT units. Returns it, and its whole length if it was cut."""
    units = re.findall(r"\\u[0-9a-f]{4}|.", text, re.S)
    return ("".join(units[:MOST_TEXT]), len(units) if len(units) > MOST_TEXT else 0)


class Reader:
    """Reads the answers of a session."""

    def __init__(self):
        self.layouts = {}

    def frame(self, line):
        words = line.split(" ")
        if words[0] == "init":
            return ["init " + words[1], 0, [], []]
        k = words.index("stack", 3)
        return [words[0], int(words[1][1:]), [value(w) for w in words[3:k]], [value(w) for w in words[k + 1:]]]

    def thread(self, line):
        """Reads: thread T OUTCOME [at PLACE] [pending R]."""
        words = line.split(" ")
        t, rest, pending = int(words[1]), words[2:], 0
        if len(rest) >= 2 and rest[-2] == "pending":
            pending, rest = int(rest[-1]), rest[:-2]
        if "at" in rest:
            rest = rest[:rest.index("at")]
        return t, " ".join(rest), pending

    def object(self, lines):
        head = lines[0].split(" ")
        o = {"owner": None, "waiting": []}
        if len(head) == 2:
            o.update(kind="i", name=head[1], values=[])
        elif head[1] == "text":
            text, n = cut_text(" ".join(head[2:])[1:-1])
            o.update(kind="t", name="java/lang/String", values=[text], **({"n": n} if n else {}))
        elif head[1] == "class":
            o.update(kind="c", name="java/lang/Class", values=[head[2]])
        else:
            o.update(kind="a", name=head[1], values=[])
        keys = []
        for line in lines[1:]:
            m = re.match(r"^owned by (\d+) count (\d+)$", line)
            if m:
                o["owner"] = [int(m.group(1)), int(m.group(2))]
            elif line.startswith("waiting "):
                o["waiting"] = [int(w) for w in line.split(" ")[1:]]
            else:
                key, v = line.rsplit(" = ", 1)
                keys.append(key)
                o["values"].append(value(v))
        if o["kind"] == "a" and len(o["values"]) > MOST_ELEMENTS:
            o["n"], o["values"] = len(o["values"]), o["values"][:MOST_ELEMENTS]
        if o["kind"] == "i":
            self.layouts.setdefault(o["name"], keys)
        return o

    def klass(self, lines):
        words = lines[0].split(" ", 2)
        fields = [line.rsplit(" = ", 1) for line in lines[1:]]
        return {"init": words[2], "keys": [k for k, _ in fields], "values": [value(v) for _, v in fields]}


def object_count(jvmx, words, last):
    """Returns the number after that of the last object. Objects are numbered without a gap."""
    is_none = lambda r: jvmx.debug(words, ["goto %d" % last, "object %d" % r])[1].startswith("fault")
    high = 64
    while not is_none(high):
        high *= 2
    low = 0
    while low + 1 < high:
        middle = (low + high) // 2
        low, high = (low, middle) if is_none(middle) else (middle, high)
    return high


def questions(first, last, threads, objects, classes):
    """Returns the commands of the session. `delete 9` answers a fault of its own, which marks the end of an answer."""
    script = []
    for p in range(first, last + 1):
        script += ["goto %d" % p, "threads"]
        for t in range(threads):
            script += ["frames %d" % t, "delete 9"]
        for r in range(1, objects):
            script += ["object %d" % r, "delete 9"]
        for c in classes:
            script += ["class %s" % c, "delete 9"]
        script += ["output", "trace", "delete 9"]
    return ("\n".join(script) + "\n").encode()


def session(jvmx, words, first, last, classes, reader):
    """Yields for each position from first to last: the state, the new items of the trace, and at first how many were before."""
    threads = sum(1 for l in jvmx.debug(words, ["goto %d" % last, "threads"]) if l.startswith("thread "))
    objects = object_count(jvmx, words, last)
    script = questions(first, last, threads, objects, classes)
    process = subprocess.Popen([jvmx.path, "debug"] + words, stdin=subprocess.PIPE, stdout=subprocess.PIPE, stderr=subprocess.DEVNULL)
    feeder = threading.Thread(target=lambda: (process.stdin.write(script), process.stdin.close()))
    feeder.start()
    lines = (l.decode().rstrip("\n") for l in process.stdout)

    def answer():
        got = []
        for line in lines:
            if line.startswith("fault ") and line.endswith("NoBreakpoint"):
                return got
            got.append(line)
        return got

    known = None
    for _ in range(first, last + 1):
        next(lines)
        state = {"threads": [], "objects": [], "classes": []}
        for t in range(threads):
            got = answer()
            if t == 0:
                state["threads"] = [reader.thread(l) for l in got if l.startswith("thread ")]
                got = [l for l in got if not l.startswith("thread ")]
            frames = [reader.frame(l) for l in got if not l.startswith("fault ")]
            if t < len(state["threads"]):
                _, status, pending = state["threads"][t]
                state["threads"][t] = {"status": status, "pending": pending, "frames": frames[::-1]}
        for _ in range(1, objects):
            got = answer()
            if got and not got[0].startswith("fault "):
                state["objects"].append(reader.object(got))
        state["classes"] = [reader.klass(answer()) for _ in classes]
        got = answer()
        output = got[0].split(" ")
        state["output"] = output[2] if len(output) > 2 else ""
        count = len(got) - 1
        yield state, [] if known is None else got[1 + known:], count if known is None else None
        known = count
    feeder.join()
    process.wait()
