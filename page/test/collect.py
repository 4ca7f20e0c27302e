#!/usr/bin/env python3
"""Collects a run by the built program, and puts it into page/template.html. For tests, until `jvmx page` writes it.

    collect.py --jvmx JVMX --entry E [--sched S] [--spec F] [--max N] [--turns A..B] [--source F].. FILE.. > run.html

It calls run --explain, trace, list and debug. Nothing is added but line numbers and names of local variables, which it
reads from the class files. ../DATA.md has the form.
"""
import argparse
import html
import json
import os
import re
import sys

from classfile import debug_tables, jasmin_lines
from session import Program, Reader, fail, session

HERE = os.path.dirname(os.path.abspath(__file__))
MOST_TURNS = 2500        # a longer run is cut to a window
BEFORE = 300             # turns that a window has before the first transaction of the cycle
MOST_OUTPUT = 65536      # bytes of output that are kept
MOST_SOURCE = 200000     # characters of a source that are kept
KINDS = {"rd": 0, "wr": 1, "acq": 2, "rel": 3, "fork": 4, "join": 5, "enter": 6, "exit": 7}
EMPTY = {"threads": [], "objects": [], "classes": [], "output": ""}


class Names:
    """Numbers names in the order in which they come."""

    def __init__(self):
        self.of, self.all = {}, []

    def __call__(self, name):
        if name not in self.of:
            self.of[name] = len(self.all)
            self.all.append(name)
        return self.of[name]


# The program.

def listed(jvmx, path):
    """Returns the class's name, and its methods: (name + '.' + descriptor, flags, instructions) by jvmx list."""
    code, out, err = jvmx.call(["list", path])
    if code and not path.endswith(".j"):          # L01, L02: Jasmin can't write it, so its instructions have no text here
        name, _, tables = debug_tables(open(path, "rb").read())
        return name, [(k, ["static"] if f & 8 else [], ["@%d" % i for i in range(len(by))]) for k, (by, _, f) in tables.items()]
    if code:
        fail(err.strip())
    name, methods, body = None, [], None
    for line in out.decode().split("\n"):
        words = line.split()
        if line.startswith((".class", ".interface")):
            name = words[-1]
        elif line.startswith(".method"):
            n, d = words[-1].split("(", 1)
            body = []
            methods.append((n + ".(" + d, words[1:-1], body))
        elif line.startswith(".end method"):
            body = None
        elif body is not None and line.startswith("    "):
            body[-1] += " " + line.strip()
        elif body is not None and line.startswith("  "):
            body.append(line.strip())
    return name, methods


def source_of(path, lang):
    text = open(path, encoding="utf-8").read()
    source = {"name": os.path.basename(path), "lang": lang, "text": text[:MOST_SOURCE]}
    return dict(source, cut=1) if len(text) > MOST_SOURCE else source


def methods_of(jvmx, path, sources, given):
    """Returns the class's name and its methods, and adds its source to the sources."""
    name, methods = listed(jvmx, path)
    file, tables, lines, out = None, {}, None, []
    if path.endswith(".j"):
        file = os.path.basename(path)
        sources.append(source_of(path, "jasmin"))
        lines = jasmin_lines(open(path, encoding="utf-8").read())
    else:
        _, file, tables = debug_tables(open(path, "rb").read())
        if file in given and not any(s["name"] == file for s in sources):
            sources.append(source_of(given[file], "java"))
    index = next((i for i, s in enumerate(sources) if s["name"] == file), -1)
    for k, (key, flags, body) in enumerate(methods):
        m = {"k": name + "." + key, "c": body, "s": index}
        if "static" in flags:
            m["static"] = 1
        by, names, _ = tables.get(key, (None, None, 0)) if lines is None else (lines[k], None, 0)
        if by is not None:
            if len(by) != len(body):
                fail("%s: %s has %d instructions, and %d lines" % (path, key, len(body), len(by)))
            m["l"] = by
        if names:
            m["v"] = names
        out.append(m)
    return name, out


# The verdict.

VERDICT = [
    (r"^uncaught (\d+) (\S+)$", lambda v, m: v["uncaught"].append({"t": int(m[1]), "class": m[2], "turn": 0})),
    (r"^status (\S+) turns (\d+)$", lambda v, m: v.update(status=m[1], turns=int(m[2]))),
    (r"^atomic events (\d+) transactions (\d+)$", lambda v, m: v.update(atomic=True, events=int(m[1]), transactions=int(m[2]))),
    (r"^cycle at (\d+) events (\d+) transactions (\d+): (.*)$", lambda v, m: v.update(
        atomic=False, at=int(m[1]), events=int(m[2]), transactions=int(m[3]), cycle=[int(w) for w in m[4].split()])),
    (r"^thread (\d+) threw at turn (\d+) at ", lambda v, m: [u.update(turn=int(m[2])) for u in v["uncaught"] if u["t"] == int(m[1])]),
]


def verdict_of(lines):
    """Reads what run --explain prints."""
    verdict, edges = {"status": "", "uncaught": []}, []
    for i, line in enumerate(lines):
        for pattern, add in VERDICT:
            m = re.match(pattern, line)
            if m:
                add(verdict, m)
        m = re.match(r"^(\d+) before (\d+)$", line)
        if m:
            events = [int(re.match(r"^  event (\d+) ", lines[i + k])[1]) for k in (1, 2)]
            edges.append([int(m[1]), int(m[2])] + events)
    if edges:
        verdict["edges"] = edges
    return verdict


def window_of(turns, asked, lines, verdict):
    """Returns the first and the last position, and why: all, those asked for, or some about what went wrong."""
    if asked:
        a, b = asked.split("..")
        return int(a or 0), min(turns, int(b or turns)), "asked"
    if turns <= MOST_TURNS:
        return 0, turns, ""
    at = [int(w) for l in lines if l.startswith(("transaction ", "  event ")) for w in re.findall(r" at turn (\d+)", l)]
    if at:
        first = max(0, min(at) - BEFORE)
        return first, min(turns, first + MOST_TURNS), "cycle"
    if verdict["status"] in ("Deadlocked", "Stalled") or verdict["uncaught"]:
        return turns - MOST_TURNS, turns, "end"
    return 0, MOST_TURNS, "start"


def is_atomic(lines, key):
    c, n, _ = key.split(".", 2)
    decided = False
    for word, pattern in lines:
        if pattern in ("*", c + ".*", c + "." + n, key):
            decided = word == "atomic"
    return decided and n != "<clinit>"


def transactions(items, atomic):
    """Returns how many transactions begin in the items, and the numbers of those that are open at their end, by thread."""
    count, opened = 0, {}
    for kind, t, what in items:
        x = opened.get(t)
        if kind == "enter":
            if x:
                x[0] += 1
            elif what in atomic:
                opened[t] = [1, 0]
        elif kind == "exit":
            if x:
                x[0] -= 1
                if not x[0]:
                    del opened[t]
        elif not x or not x[1]:
            count += 1
            if x:
                x[1] = count
    return count, [[int(t), x[1]] for t, x in opened.items() if x[1]]


# The states.

def top_operation(t, x, y):
    """Returns the operation that changes a thread's top frame from x to y."""
    changed = [w for i, (v, new) in enumerate(zip(x[2], y[2])) if v != new for w in (i, new)]
    keep = 0
    while keep < min(len(x[3]), len(y[3])) and x[3][keep] == y[3][keep]:
        keep += 1
    op = ["u", t, y[1], len(x[3]) - keep, y[3][keep:], changed]
    while len(op) > 3 and op[-1] in ([], 0):
        op.pop()
    return op


def thread_operations(t, was, now, frame):
    if now["status"] != was["status"]:
        yield ["s", t, now["status"]]
    if now["pending"] != was["pending"]:
        yield ["p", t, now["pending"]]
    a, b = was["frames"], now["frames"]
    if a == b:
        return
    if len(a) == len(b) and a[:-1] == b[:-1] and a[-1][0] == b[-1][0] and len(a[-1][2]) == len(b[-1][2]):
        yield top_operation(t, a[-1], b[-1])
        return
    keep = 0
    while keep < min(len(a), len(b)) and a[keep] == b[keep]:
        keep += 1
    yield ["f", t, len(a) - keep] + [frame(f) for f in b[keep:]]


def object_operations(r, was, o, strings):
    if was is None:
        yield ["o", r, o["kind"], strings(o["name"]), o["values"]] + ([o["n"]] if "n" in o else [])
        was = {"values": o["values"], "owner": None, "waiting": []}
    for i, (v, w) in enumerate(zip(was["values"], o["values"])):
        if v != w:
            yield ["v", r, i, w]
    if was["owner"] != o["owner"]:
        yield ["m", r] + (o["owner"] or [])
    if was["waiting"] != o["waiting"]:
        yield ["w", r] + o["waiting"]


def class_operations(c, was, k):
    if was["init"] != k["init"]:
        yield ["i", c, k["init"]]
    for i, w in enumerate(k["values"]):
        if i >= len(was["values"]) or was["values"][i] != w:
            yield ["g", c, i, w]


def operations(old, new, frame, strings):
    """Returns what leads from one state to the next."""
    ops = []
    nobody, nothing = {"status": "", "pending": 0, "frames": []}, {"init": "new", "values": []}
    for t, thread in enumerate(new["threads"]):
        ops += thread_operations(t, old["threads"][t] if t < len(old["threads"]) else nobody, thread, frame)
    for r, o in enumerate(new["objects"], 1):
        ops += object_operations(r, old["objects"][r - 1] if r <= len(old["objects"]) else None, o, strings)
    for c, k in enumerate(new["classes"]):
        ops += class_operations(c, old["classes"][c] if old["classes"] else nothing, k)
    more = new["output"][len(old["output"]):2 * MOST_OUTPUT]
    return ops + ([["x", more]] if more else [])


def run_words(args):
    words = ["--entry", args.entry]
    for option in ("args", "sched", "max"):
        if getattr(args, option):
            words += ["--" + option, str(getattr(args, option))]
    return words + args.files


def specification(args, methods):
    """Returns the specification's text, and marks the methods that it names."""
    if not args.spec:
        return ""
    text = open(args.spec, encoding="utf-8").read()
    lines = [l.split()[:2] for l in text.splitlines() if l.strip() and not l.startswith("#")]
    for m in methods:
        if is_atomic(lines, m["k"]):
            m["atomic"] = 1
    return text


def states_of(jvmx, words, window, classes, number):
    """Returns base, deltas, the items with their turns, how many items were before, and the names that they use."""
    first, last = window
    reader, strings = Reader(), Names()
    frame = lambda f: [number.get(f[0], f[0])] + f[1:]
    base, deltas, items, marks, statics, old, p = None, [], [], 0, [], None, first
    for state, new_items, before in session(jvmx, words, first, last, classes, reader):
        if old is None:
            base, statics, marks = operations(EMPTY, state, frame, strings), [k["keys"] for k in state["classes"]], before
        else:
            p += 1
            deltas.append(operations(old, state, frame, strings))
            items += [[p] + line.split(" ") for line in new_items]
        old = state
    layouts = [reader.layouts.get(s, []) for s in strings.all]
    return {"base": base, "deltas": deltas, "statics": statics, "strings": strings.all, "layouts": layouts}, items, marks, len(old["output"]) // 2


def shell_word(word):
    return "'" + word + "'" if " " in word or "$" in word else word


def collect(args):
    jvmx, words = Program(args.jvmx), run_words(args)
    classes, methods, sources, given = [], [], [], {os.path.basename(s): s for s in args.source}
    for path in args.files:
        name, more = methods_of(jvmx, path, sources, given)
        classes.append(name)
        methods += more
    number = {m["k"]: i for i, m in enumerate(methods)}
    spec, spec_words = specification(args, methods), ["--spec", args.spec] if args.spec else []
    code, _, err = jvmx.call(["run", "--explain"] + spec_words + words)
    if code not in (0, 1):
        fail(err.strip())
    lines = err.splitlines()
    verdict = verdict_of(lines)
    if args.race:
        verdict["race"] = [int(w) for w in args.race.split(",")]
    _, out, _ = jvmx.call(["trace", "--choices"] + words)
    choices = [int(w) for w in out.decode().strip()[len("list:"):].split(",") if w]
    first, last, why = window_of(verdict["turns"], args.turns, lines, verdict)
    states, items, marks, output = states_of(jvmx, words, (first, last), classes, number)
    _, out, _ = jvmx.call(["trace"] + words)
    all_items = [l.split(" ") for l in out.decode().splitlines()]
    atomic, things = {m["k"] for m in methods if "atomic" in m}, Names()
    tx_before, tx_open = transactions(all_items[:marks], atomic)
    count, _ = transactions(all_items, atomic)
    if count != verdict.get("transactions", count):
        fail("%d transactions, and jvmx has %d" % (count, verdict["transactions"]))
    rows = [[p, KINDS[k], things(what) if k in ("rd", "wr", "enter", "exit") else int(what)] for p, k, _, what in items]
    command = " ".join(["jvmx", "run"] + spec_words[:1] + [shell_word(os.path.basename(w)) for w in spec_words[1:] + words])
    more = {"output_of": output} if output > MOST_OUTPUT else {}
    return {
        "form": 1, "program": args.title or args.entry, "schedule": args.sched or "rr:1", "command": command,
        "version": jvmx.call(["-V"])[1].decode().strip(), "spec": spec,
        "window": {"from": first, "to": last, "of": verdict["turns"], "why": why},
        "classes": classes, "statics": states["statics"], "methods": methods, "sources": sources, "strings": states["strings"],
        "layouts": states["layouts"], "things": things.all, "verdict": verdict,
        "events_before": sum(1 for w in all_items[:marks] if w[0] not in ("enter", "exit")),
        "tx_before": tx_before, "tx_open": tx_open, "choices": choices[first:last], "items": rows,
        "base": states["base"], "deltas": states["deltas"], **more,
    }


def safe_json(data):
    """Returns JSON that stays inside its script element, whatever strings it has."""
    text = json.dumps(data, separators=(",", ":"), ensure_ascii=True)
    return text.replace("&", "\\u0026").replace("<", "\\u003c").replace(">", "\\u003e")


def page(data):
    """Puts the title and the data into the template, in one pass."""
    text = open(os.path.join(HERE, "..", "template.html"), encoding="utf-8").read()
    places = {"@TITLE@": html.escape(data["program"]), "@DATA@": safe_json(data)}
    return re.sub("@TITLE@|@DATA@", lambda m: places[m.group(0)], text)


def parsed(words=None):
    parser = argparse.ArgumentParser()
    parser.add_argument("--jvmx", default="jvmx")
    parser.add_argument("--entry", required=True)
    for option in ("--args", "--sched", "--max", "--spec", "--turns", "--title", "--race"):
        parser.add_argument(option)
    parser.add_argument("--source", action="append", default=[])
    parser.add_argument("--json", action="store_true", help="prints the data alone")
    parser.add_argument("files", nargs="+")
    return parser.parse_args(words)


if __name__ == "__main__":
    arguments = parsed()
    run_data = collect(arguments)
    sys.stdout.write(safe_json(run_data) if arguments.json else page(run_data))
