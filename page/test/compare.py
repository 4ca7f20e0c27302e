"""Compares what a page shows at its positions with what `jvmx debug` prints there."""
import re

import expect

# Returns what the page shows at each of the positions.
SHOWN = """
const q = (e, s) => [...e.querySelectorAll(s)], text = e => e.textContent, slider = document.getElementById('range');
const frame = f => [f.querySelector('.w').title, q(f, '.v.loc').map(text), q(f, '.v.stk').map(text)];
const card = c => [c.querySelector('.st').title, text(c.querySelector('.st')), q(c, '.fr').map(frame), q(c, '.more').length];
const object = o => ({name: text(o.querySelector('.hd').childNodes[0]), lock: q(o, '.lock').map(text), el: q(o, '.vals .v').map(text),
  f: q(o, '.f:not(.lock)').map(f => [f.title, text(f.childNodes[1])])});
return arguments[0].map(p => {
  slider.value = p;
  slider.dispatchEvent(new Event('input'));
  const marks = q(document, '.ln').flatMap(l => q(l, '.g .chip.next').map(c => [text(c), Number(text(l.querySelector('.n')))]));
  return {pos: text(document.getElementById('pos')), threads: q(document, '.th').map(c => [Number(c.dataset.thread), card(c)]),
    statics: q(document, '#statebox > .f').map(f => [f.title, text(f.childNodes[0]), f.childNodes[1] ? text(f.childNodes[1]) : '']),
    objects: q(document, '.ob').map(o => [Number(o.dataset.object), object(o)]), marks,
    output: text(document.getElementById('outtext')), said: text(document.getElementById('say')),
    playhead: text(document.querySelector('#playhead text')), hidden: document.getElementById('now').hidden};
});
"""


class Checker:
    """Counts comparisons, and keeps those that fail."""

    def __init__(self):
        self.count, self.wrong = 0, []

    def same(self, what, got, expected):
        self.count += 1
        if got != expected:
            self.wrong.append("%s: %r, and not %r" % (what, got, expected))

    def true(self, what, value):
        self.same(what, bool(value), True)


def typed(shown, expected):
    """Returns the expected values, with booleans and chars as the page shows them: a frame doesn't say its types."""
    words = {"0": ("false", "char 0"), "1": ("true", "char 1")}
    if len(shown) != len(expected):
        return expected
    char = lambda n: n.isdigit() and (("'%s'" % chr(int(n))) if 32 < int(n) < 127 else "char " + n)
    return [x if x == y or x in words.get(y, ()) or x == char(y) else y for x, y in zip(shown, expected)]


def compare_threads(c, at, shown, s):
    cards = dict((t, card) for t, card in shown["threads"])
    c.same(at + "threads", sorted(cards), sorted(s["threads"]))
    for t in sorted(set(cards) & set(s["threads"])):
        outcome, say, frames, gaps = cards[t]
        expected = expect.frames_shown(s, s["threads"][t])
        c.same(at + "outcome of thread %d" % t, outcome, s["threads"][t]["outcome"])
        m = re.match(r"Blocked monitor (\d+) by (\d+)", outcome)
        if m:
            c.same(at + "words", say[2:], "blocked: wants the lock of %s, owned by T%s" % (expect.object_name(s, int(m[1])), m[2]))
        c.same(at + "frames of thread %d" % t, [f[0] if "@" in f[0] else f[0].split(" @")[0] for f in frames],
               [f[0] if "@" in frames[i][0] else f[0].split(" @")[0] for i, f in enumerate(expected)] if len(frames) == len(expected) else None)
        c.same(at + "gap of thread %d" % t, gaps, 1 if len(s["threads"][t]["frames"]) > 20 else 0)
        for (place, locs, stack), (_, locs2, stack2) in zip(frames, expected):
            values = [re.sub(r"^[^=]*=", "", v, count=1) for v in locs]
            c.same(at + "locals of " + place, values, typed(values, locs2))
            c.same(at + "operands of " + place, stack, stack2)


def compare_objects(c, at, shown, s):
    objects = dict((r, o) for r, o in shown["objects"])
    for r in sorted(expect.reached(s)):
        lines = s["objects"][r]
        if expect.is_left_out(lines):
            continue
        if r not in objects and lines[0].split(" ")[1] == "class" and len(lines) == 1:
            continue
        if r not in objects:
            c.same(at + "object %d" % r, None, lines)
            continue
        fields, elements, owner, waiting = expect.object_shown(s, lines)
        got, locks = objects[r], " ".join(objects[r]["lock"])
        c.same(at + "name of object %d" % r, got["name"], expect.object_name(s, r))
        c.same(at + "fields of object %d" % r, got["f"], fields)
        c.same(at + "elements of object %d" % r, got["el"], elements)
        c.same(at + "owner of object %d" % r, (re.findall(r"locked by T(\d+)", locks) or [None])[0] if "unlocked" not in locks else None, owner)
        c.same(at + "waiting for object %d" % r, " ".join(re.findall(r"T(\d+)", "".join(l for l in got["lock"] if l.startswith("waiting")))), waiting)
        wanting = sorted(t for t, x in s["threads"].items() if x["outcome"].startswith("Blocked monitor %d by" % r))
        c.same(at + "who wants object %d" % r, [int(t) for t in re.findall(r"T(\d+)", "".join(l for l in got["lock"] if l.startswith("wanted")))], wanting)


def compare_states(c, driver, jvmx, page, every):
    """Compares what the page shows at its positions with `jvmx debug`."""
    window, classes = page.data["window"], page.data["classes"]
    positions = [p for p in range(window["from"], window["to"] + 1)]
    if len(positions) > 300:
        positions = sorted(set(positions[::every] + positions[-1:]))
    objects = max(o[1] for d in [page.data["base"]] + page.data["deltas"] for o in d + [["o", 0]] if o[0] == "o")
    states = expect.states(jvmx, page.words, positions, classes, objects)
    ahead = [p for p in positions if p < window["to"]]
    lines = expect.next_lines(jvmx, page.words, ahead) if page.data["sources"] else {}
    if any("v" in m for m in page.data["methods"]):
        driver.key("l")                            # local variables without a name too
    for i in range(0, len(positions), 40):
        for p, shown in zip(positions[i:i + 40], driver.script(SHOWN, positions[i:i + 40])):
            s, at = states[p], "position %d: " % p
            whole = window["from"] == 0 and window["to"] == window["of"]
            c.same(at + "position", shown["pos"], "Turn %d of %d" % (p, window["of"]) if whole else
                   "Turn %d of %d (%d)" % (p, window["to"], window["of"]))
            c.same(at + "playhead", shown["playhead"], str(p))
            compare_threads(c, at, shown, s)
            c.same(at + "static fields", [x for x in shown["statics"] if x[0]], expect.statics_shown(s, classes))
            compare_objects(c, at, shown, s)
            c.same(at + "output", shown["output"], expect.visible(s["output"]))
            c.true(at + "sentence", shown["said"])
            if p in lines:
                c.same(at + "line of the next turn", shown["marks"], [["T" + lines[p][0], lines[p][1]]])
    if any("v" in m for m in page.data["methods"]):
        driver.key("l")
    return len(positions)
