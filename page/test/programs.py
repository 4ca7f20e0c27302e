"""Makes the pages that browser.py opens: compiles the examples, patches the hostile class, calls collect.py."""
import os
import re
import struct
import subprocess

import collect
from classfile import escaped

HERE = os.path.dirname(os.path.abspath(__file__))
EXAMPLES = os.path.join(HERE, "..", "..", "examples")
THREADS, JAVA = os.path.join(EXAMPLES, "threads"), os.path.join(EXAMPLES, "java")

ESC, RLO, BELL = "\x1b[31m", "\u202e", "\x07"

# What names and texts become in the hostile class. Names of classes have no . ; [ and no empty part, of methods no < >.
HOSTILE = {
    "Evil": '<' + '/script><script>document' + 'title="owned"<' + '/script>',
    "field": "<img src=x onerror=alert(1)>" + RLO + '"',
    "own": "__proto__",
    "method": "constructor\"'&lt" + ESC[0] + RLO + "`",
    "TEXT": "</script><script>alert(1)</script> <!-- &amp; \"' " + ESC + RLO + "txt.exe" + BELL,
}

# Pages: source, specification or its text, words.
PAGES = {
    "LostUpdate": (THREADS, "atomic.spec", []),
    "Bank": (THREADS, "Bank.spec", []),
    "Lazy": (THREADS, "Lazy.spec", []),
    "DoubleChecked": (THREADS, "DoubleChecked.spec", []),
    "Mailbox": (THREADS, "atomic Mailbox.put\natomic Mailbox.take\n", []),
    "Philosophers": (THREADS, "", []),
    "LostNotification": (JAVA, "LostNotification.spec", ["--sched", "seed:0:4"]),
    "BoundedBuffer": (JAVA, "BoundedBuffer.spec", []),
    "Uncaught": (JAVA, "", []),
    "Many": (HERE, "atomic Many.*\n", ["--sched", "rr:7"]),
    "Hostile": (HERE, "atomic *\n", []),
    "Jasmin": (THREADS, "atomic.spec", []),
}


class Page:
    """A page, its file, and the words by which jvmx runs the program."""

    def __init__(self, name, path, words, files, data):
        self.name, self.path, self.words, self.files, self.data = name, path, words, files, data


def encoded(text):
    """Returns a text as class files have it."""
    return text.encode("utf-8").replace(b"\0", b"\xc0\x80")


def patched(data, names):
    """Returns a class file whose names and texts are replaced."""
    count, at, out = struct.unpack(">H", data[8:10])[0], 10, [data[:10]]
    sizes, i = {3: 5, 4: 5, 5: 9, 6: 9, 7: 3, 8: 3, 9: 5, 10: 5, 11: 5, 12: 5}, 1
    while i < count:
        tag = data[at]
        size = 3 + struct.unpack(">H", data[at + 1:at + 3])[0] if tag == 1 else sizes[tag]
        entry = data[at:at + size]
        if tag == 1:
            text = entry[3:].decode("utf-8")
            text = re.sub(r"\b(%s)\b" % "|".join(names), lambda m: names[m.group(1)], text) if not text.endswith(".java") else text
            entry = b"\1" + struct.pack(">H", len(encoded(text))) + encoded(text)
        out.append(entry)
        at += size
        i += 2 if tag in (5, 6) else 1
    return b"".join(out) + data[at:]


def compiled(folder, source):
    """Compiles a source with the names of local variables, unless that was done. Returns the class files."""
    os.makedirs(folder, exist_ok=True)
    if not os.listdir(folder):
        subprocess.run(["ecj", "-g", "-nowarn", "-proc:none", "-source", "1.5", "-target", "1.5", "-d", folder, source], check=True,
                       stdout=subprocess.DEVNULL)
    return sorted(os.path.join(folder, f) for f in os.listdir(folder) if f.endswith(".class") and "patched" not in f)


def rewritten(path, names):
    """Writes a class file with other names and texts beside it. Returns its path."""
    with open(path, "rb") as f:
        data = patched(f.read(), names)
    path += ".patched.class"
    with open(path, "wb") as f:
        f.write(data)
    return path


def hostile(folder):
    """Makes the hostile class and its source. Returns the source and the class file."""
    source = os.path.join(folder, "Evil.java")
    os.makedirs(folder, exist_ok=True)
    text = open(os.path.join(HERE, "Hostile.java"), encoding="utf-8").read()
    with open(source, "w", encoding="utf-8") as f:
        f.write(text)
    path = rewritten(compiled(os.path.join(folder, "out"), source)[0], HOSTILE)
    with open(source, "w", encoding="utf-8") as f:
        f.write(text.replace("ESC:", "ESC:" + ESC).replace("RLO:", "RLO:" + RLO))
    return source, path


def sources_of(folder, name, where):
    """Returns the entry, the source and the class files of a page."""
    if name == "Jasmin":
        return "LostUpdate", None, [os.path.join(where, "LostUpdate.j")]
    if name == "Hostile":
        source, path = hostile(os.path.join(folder, "Hostile"))
        return HOSTILE["Evil"], source, [path]
    source = os.path.join(where, name + ".java")
    files = compiled(os.path.join(folder, name), source)
    if name == "Many":
        files = [rewritten(f, {"LONGTEXT": "a long text \u05d0\u05d1 " * 150}) for f in files]
    return name, source, files


def make(jvmx, folder, name, out=None, more=(), change=None):
    """Makes a page. `more` are words of collect.py; `change` edits the data."""
    where, spec, words = PAGES[name]
    entry, source, files = sources_of(folder, name, where)
    if spec.endswith("\n"):
        path = os.path.join(folder, name + ".spec")
        with open(path, "w", encoding="utf-8") as f:
            f.write(spec)
    else:
        path = os.path.join(where, spec) if spec else ""
    title = ["--title", "</title><script>document.title='owned'</script>" + RLO] if name == "Hostile" else []
    args = collect.parsed(["--jvmx", jvmx, "--entry", escaped(entry)] + words + (["--spec", path] if path else []) +
                          (["--source", source] if source else []) + title + list(more) + files)
    data = collect.collect(args)
    if change:
        change(data)
    page = os.path.join(folder, (out or name) + ".html")
    with open(page, "w", encoding="utf-8") as f:
        f.write(collect.page(data))
    return Page(out or name, page, collect.run_words(args), files, data)
