"""Says what a page has to show at each position, by the answers of `jvmx debug` alone.

It shares no code with collect.py or with the page: a mistake in one of them shows as a difference.
"""
import os
import pty
import re
import subprocess
import threading

PRIMITIVES = {"I": "int", "Z": "boolean", "J": "long", "C": "char", "B": "byte", "S": "short"}
TARGET = "java/lang/Thread.target.Ljava/lang/Runnable; = null"


def asked(jvmx, words, commands):
    """Returns the lines that each command answers: a fault of its own is asked for after each."""
    text = "".join(c + "\ndelete 99\n" for c in commands)
    out = subprocess.run([jvmx, "debug"] + words, input=text.encode(), capture_output=True).stdout.decode().splitlines()
    answers, got = [], []
    for line in out:
        if line.startswith("fault ") and line.endswith("NoBreakpoint"):
            answers.append(got)
            got = []
        else:
            got.append(line)
    return answers


def commands_at(p, threads, objects, classes):
    return (["goto %d" % p, "threads", "output"] + ["frames %d" % t for t in range(threads)] +
            ["object %d" % r for r in range(1, objects + 1)] + ["class %s" % c for c in classes])


def thread_of(line):
    m = re.match(r"thread (\d+) (.*?)(?: at (\S+ ?@?\S*))?(?: pending (\d+))?$", line)
    return int(m[1]), {"outcome": m[2], "pending": m[4], "frames": []}


def frame_of(line):
    m = re.match(r"(\S+) @(\d+) locals ?(.*?) ?stack ?(.*)$", line)
    return (m[1] + " @" + m[2], m[3].split(), m[4].split()) if m else (line, [], [])


def states(jvmx, words, positions, classes, objects):
    """Returns the state at each position."""
    threads = sum(1 for l in asked(jvmx, words, ["goto %d" % max(positions), "threads"])[1] if l.startswith("thread "))
    answers = iter(asked(jvmx, words, [c for p in positions for c in commands_at(p, threads, objects, classes)]))
    out = {}
    for p in positions:
        next(answers)
        s = {"threads": dict(thread_of(l) for l in next(answers)), "objects": {}, "classes": {}}
        output = next(answers)[0].split()
        s["output"] = bytes.fromhex(output[2]).decode() if len(output) > 2 else ""
        for t in range(threads):
            got = next(answers)
            if t in s["threads"]:
                s["threads"][t]["frames"] = [frame_of(l) for l in got if not l.startswith("fault")]
        for r in range(1, objects + 1):
            got = next(answers)
            if not got[0].startswith("fault"):
                s["objects"][r] = got
        s["classes"] = {c: next(answers) for c in classes}
        out[p] = s
    return out


def next_lines(jvmx, words, positions):
    """Returns by position the thread of the next turn and its line, as a terminal shows them: {position: (thread, line)}."""
    master, slave = pty.openpty()
    process = subprocess.Popen([jvmx, "debug"] + words, stdin=slave, stdout=subprocess.DEVNULL, stderr=slave)
    os.close(slave)
    got = []

    def read():
        while True:
            try:
                piece = os.read(master, 65536)
            except OSError:
                return
            if not piece:
                return
            got.append(piece)

    reader = threading.Thread(target=read)
    reader.start()
    for p in positions:
        os.write(master, b"goto %d\n" % p)
    os.write(master, b"\x04")
    process.wait()
    reader.join(10)
    os.close(master)
    text = b"".join(got).decode("utf-8", "replace")
    pieces, out = re.split(r"\((\d+) of \d+\) ", text), {}
    for before, p in zip(pieces[2::2], pieces[3::2]):
        m = re.search(r"next: thread (\d+) at \S+ @\d+ \([^:)]*:(\d+)\)", before)
        if m:
            out[int(p)] = (m[1], int(m[2]))
    return out


def short(c):
    """Returns the short name of a class."""
    if c.startswith("["):
        n = len(c) - len(c.lstrip("["))
        b = c[n:]
        return (short(b[1:-1]) if b[0] == "L" else PRIMITIVES[b]) + "[]" * n
    last = c.split("/")[-1]
    return last[last.rindex("$") + 1:] if "$" in last and not last[last.rindex("$") + 1:].isdigit() else last


def cut(text, n):
    units = text.encode("utf-16-be", "surrogatepass")
    return text if len(units) // 2 <= n else units[:2 * (n - 1)].decode("utf-16-be", "surrogatepass") + "\u2026"


HIDDEN = re.compile("[\x00-\x08\x0b-\x1f\x7f-\x9f\xad\u061c\u200b-\u200f\u2028-\u202e\u2060-\u206f\ufeff\ud800-\udfff\ue000-\uf8ff]")


def visible(text):
    """Returns the text as a page shows it."""
    return HIDDEN.sub(lambda m: "\\u%04x" % ord(m[0]), text)


def unescaped(text):
    return re.sub(r"\\u([0-9a-f]{4})", lambda m: chr(int(m[1], 16)), text)


def object_name(s, r):
    head = s["objects"][r][0].split(" ")
    if head[1] == "text":
        return visible('"' + cut(unescaped(" ".join(head[2:])[1:-1]), 24) + '"')
    if head[1] == "class" and len(head) == 3:
        return short(head[2]) + ".class"
    if len(head) == 3:
        return "#%d %s[%s]" % (r, short(head[1])[:-2], head[2])
    return "#%d %s" % (r, short(head[1]))


def value(s, word, d=""):
    if word.startswith("I:"):
        n = int(word[2:])
        if d == "C":
            return "'%s'" % chr(n) if 32 < n < 127 else "char %d" % n
        return ("true" if n else "false") if d == "Z" else str(n)
    if word.startswith("J:"):
        return word[2:] + "L"
    return object_name(s, int(word[2:])) if word.startswith("R:") else word


def reached(s):
    """Returns the objects that frames, exceptions, static fields, monitors and waits lead to."""
    words = [w for t in s["threads"].values() for _, ls, st in t["frames"] for w in ls + st]
    words += [l.rsplit(" = ", 1)[1] for ls in s["classes"].values() for l in ls[1:]]
    todo = [int(w[2:]) for w in words if w.startswith("R:")] + [int(t["pending"]) for t in s["threads"].values() if t["pending"]]
    done = set()
    while todo:
        r = todo.pop()
        if r not in done:
            done.add(r)
            todo += [int(l.rsplit(" = R:", 1)[1]) for l in s["objects"][r][1:] if " = R:" in l]
    return done


def frames_shown(s, thread):
    """Returns the frames, the topmost first: place, local variables, operands. Of more than 20 the middle is left out."""
    frames = [[k, [value(s, w) for w in ls if w not in "+-"], [value(s, w) for w in st if w != "+"]] for k, ls, st in thread["frames"]]
    return frames if len(frames) <= 20 else frames[:19] + frames[-1:]


def is_left_out(lines):
    head = lines[0].split(" ")
    return head[1] == "text" or head[1] == "java/io/PrintStream" or lines[0].endswith("[Ljava/lang/String; 0")


def object_shown(s, lines):
    """Returns fields, elements, owner and waiting threads."""
    head, fields, elements, owner, waiting = lines[0].split(" "), [], [], None, ""
    for line in lines[1:]:
        if line.startswith("owned by"):
            owner = line.split()[2]
        elif line.startswith("waiting"):
            waiting = line[len("waiting "):]
        elif line.startswith("["):
            elements.append(value(s, line.rsplit(" = ", 1)[1], head[1][1:]))
        elif line != TARGET:
            key, v = line.rsplit(" = ", 1)
            fields.append([key, value(s, v, key.split(".")[2])])
    return fields, elements[:64], owner, waiting


def statics_shown(s, classes):
    out = []
    for c in classes:
        for line in s["classes"][c][1:]:
            key, v = line.rsplit(" = ", 1)
            _, n, d = key.split(".", 2)
            out.append([key, short(c) + "." + cut(n, 40) + " = ", value(s, v, d)])
    return out
