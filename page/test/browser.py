#!/usr/bin/env python3
"""Drives the pages in Chromium, and compares what they show with what `jvmx debug` prints at the same positions.

    browser.py --jvmx JVMX [--folder F] [--every N] [--shots F] [NAME..]

--every N compares every Nth position of a run of over 300 turns. --shots F writes pictures there. It needs Debian's
packages chromium, chromium-driver and ecj. One browser runs at a time.
"""
import argparse
import os
import re
import signal
import sys
import tempfile
import time

import programs
from compare import Checker, compare_states
from driver import Driver

def position(driver):
    return int(driver.script("return document.getElementById('pos').textContent").split()[1])


def check_keys(c, driver, page):
    """Tries the keys that move, by what the choices and the trace say."""
    window, choices = page.data["window"], page.data["choices"]
    total, own = window["to"], [i + 1 for i, t in enumerate(choices) if t == choices[0]]
    events = sorted({p for p, kind, _ in page.data["items"] if kind < 6})

    def key(k, expected, shift=False):
        driver.key(k, shift)
        c.same("key %s%s" % ("Shift " if shift else "", k), position(driver), expected)

    for k, expected in [("Home", 0), ("ArrowRight", 1), ("ArrowRight", 2), ("ArrowLeft", 1), ("PageDown", min(11, total)), ("End", total), ("PageUp", total - 10),
                        ("Home", 0), ("ArrowDown", own[0]), ("ArrowDown", own[1]), ("ArrowUp", own[0]), ("Escape", own[0]), ("Home", 0)]:
        key(k, expected)
    if events:
        key("ArrowRight", events[0], True)
        key("ArrowRight", events[1], True)
        key("ArrowLeft", events[0], True)
    stops = [p for p in driver.script(STOPS) if p]
    driver.key("Home")
    for p in sorted(stops)[:3]:
        key("v", p)


def check_switches(c, driver):
    """Tries the keys that change what is shown: each again changes it back."""
    shown = lambda what: driver.script("return " + what)
    for k, what in [("d", "document.documentElement.dataset.theme"), ("f", "document.documentElement.style.getPropertyValue('--s')"),
                    ("s", "document.getElementById('src').hidden"), ("t", "document.getElementById('time').hidden"),
                    ("m", "document.getElementById('state').hidden"), ("e", "document.getElementById('verdict').offsetHeight"),
                    ("a", "document.querySelector('#timescroll svg').getAttribute('height')"),
                    ("c", "document.getElementById('b-grey').getAttribute('aria-pressed')"),
                    ("n", "document.getElementById('b-names').getAttribute('aria-pressed')")]:
        before = shown(what)
        driver.key(k)
        c.true("key %s changes %s" % (k, what), shown(what) != before)
        for _ in range(2 if k == "f" else 1):
            driver.key(k)
        c.same("key %s again" % k, shown(what), before)
    driver.key("?")
    c.true("key ? opens the help", shown("document.getElementById('help').open"))
    driver.key("Escape")
    c.true("Escape closes the help", not shown("document.getElementById('help').open"))
    driver.key("Home")
    driver.key("Space")
    time.sleep(1.6)
    driver.key("Space")
    at = position(driver)
    c.true("Space plays", at > 0)
    time.sleep(.8)
    c.same("Space pauses", position(driver), at)
    driver.key("0")
    c.same("key 0 chooses thread 0", shown("[...document.querySelectorAll('#heads > div')].findIndex(h => h.classList.contains('sel'))"), 1)
    driver.key("Escape")
    driver.script("document.querySelectorAll('#heads > div')[1].focus()")
    driver.key("Enter")
    c.same("Enter on a head chooses it", shown("[...document.querySelectorAll('#heads > div')].findIndex(h => h.getAttribute('aria-pressed') === 'true')"), 1)
    driver.key("Space")
    c.same("Space on a head chooses none", shown("document.querySelectorAll('#heads .sel').length"), 0)
    driver.key("Enter")
    driver.key("Escape")
    c.same("Escape chooses none", shown("document.querySelectorAll('#heads .sel').length"), 0)


STOPS = "return [...new Set([...document.querySelectorAll('#verdict ul a.turn')].map(a => Number(a.hash.slice(6))))].sort((a, b) => a - b)"


def check_slider(c, driver, page):
    """Moves the slider by keys, follows a link, reads and writes the address."""
    total = page.data["window"]["to"]
    driver.key("Home")
    driver.script("document.getElementById('range').focus()")
    driver.key("ArrowRight")
    c.same("the slider by a key", position(driver), 1)
    c.same("the slider's value", driver.script("return document.getElementById('range').value"), "1")
    c.true("the slider says its turn", driver.script("return document.getElementById('range').getAttribute('aria-valuetext')").startswith("turn 1: "))
    links = driver.script(STOPS)
    if links:
        driver.script("document.querySelector('#verdict ul a.turn').click()")
        first = driver.script("return Number(document.querySelector('#verdict ul a.turn').hash.slice(6))")
        c.same("a link of the verdict", position(driver), first)
        time.sleep(.5)
        c.same("the address", driver.script("return location.hash"), "#turn=%d" % first)
    driver.script("location.hash = 'turn=7'")
    time.sleep(.3)
    c.same("another address", position(driver), 7)
    driver.open("file://" + page.path + "#turn=%d" % (total + 99))
    c.same("an address after the end", position(driver), total)
    driver.open("file://" + page.path + "#turn=%s" % "x<img>")
    c.true("an address that is no number", 0 <= position(driver) <= total)


CONTRAST = """
const channel = v => v <= .03928 ? v / 12.92 : ((v + .055) / 1.055) ** 2.4;
const light = c => { const [r, g, b] = c.match(/[0-9.]+/g).map(Number); return .2126 * channel(r / 255) + .7152 * channel(g / 255) + .0722 * channel(b / 255); };
const probe = document.createElement('span'), root = document.documentElement;
document.body.append(probe);
const colour = name => { probe.style.color = 'var(--' + name + ')'; return light(getComputedStyle(probe).color); };
const ratio = (a, b) => (Math.max(a, b) + .05) / (Math.min(a, b) + .05);
const pairs = [['ink', 'pane'], ['ink', 'soft'], ['dim', 'pane'], ['faint', 'pane'], ['dim', 'soft'], ['bad', 'pane'], ['bad', 'badbg'], ['dim', 'badbg'], ['ink', 'chg'],
  ['dim', 'chg'], ['accent', 'badbg'], ['accent', 'pane'], ['on', 'bad'], ['on', 'good'], ['on', 'dim'], ['on', 'accent'], ['key', 'pane'], ['str', 'pane'], ['com', 'pane']];
for (let t = 0; t < 8; t++) pairs.push(['on', 't' + t], ['ink', 'w' + t], ['t' + t, 'pane'], ['dim', 'w' + t], ['bad', 'w' + t]);
const low = pairs.map(([a, b]) => [a, b, ratio(colour(a), colour(b))]).filter(x => x[2] < 4.5).map(x => x.join(' '));
probe.remove();
return low;
"""

NAMELESS = """
const name = e => e.getAttribute('aria-label') || e.textContent.trim();
const out = [...document.querySelectorAll('button, a, input, canvas, section, [role], dialog')].filter(e => !name(e) && !e.getAttribute('aria-labelledby'));
return out.map(e => e.outerHTML.slice(0, 100));
"""


def check_look(c, driver, page):
    """Tries dark and light, roles and names, and paper."""
    for theme in ("light", "dark"):
        driver.open("file://" + page.path + "#turn=5&theme=" + theme)
        c.same("theme " + theme, driver.script("return document.documentElement.dataset.theme"), theme)
        c.same("contrast of " + theme, driver.script(CONTRAST), [])
    c.same("elements without a name", driver.script(NAMELESS), [])
    c.same("live region", driver.script("return document.getElementById('say').getAttribute('aria-live')"), "polite")
    c.true("all is reached by Tab", driver.script("return [...document.querySelectorAll('.scroll, button, a.turn, input')].every(e => e.tabIndex >= 0)"))
    driver.open("file://" + page.path + "#turn=5")
    driver.pdf(os.path.join(page.path + ".pdf"))
    c.true("paper", os.path.getsize(page.path + ".pdf") > 10000)
    driver.command("Emulation.setEmulatedMedia", media="print")
    driver.script("dispatchEvent(new Event('beforeprint'))")
    c.true("sheets of the timeline", driver.script("return document.querySelectorAll('.sheet svg text').length") > 0)
    c.same("buttons on paper", driver.script("return [...document.querySelectorAll('header button, footer button, input')].filter(e => e.offsetWidth).length"), 0)
    c.same("paper is light", driver.script("return document.documentElement.dataset.theme"), "light")
    driver.script("dispatchEvent(new Event('afterprint'))")
    driver.command("Emulation.setEmulatedMedia", media="")
    c.same("sheets after printing", driver.script("return document.querySelectorAll('.sheet').length"), 0)


CUT = """
return [...document.querySelectorAll('#drawing text')].map(t => t.textContent).filter(t => /\\u2026$/.test(t) && !/^(joins|waiting|init)/.test(t));
"""


def check_sizes(c, driver, page):
    """Says whether the page fits windows of some sizes, and whether labels of an ordinary program are whole."""
    for width, height, size in [(1600, 1000, 0), (1280, 800, 1), (1024, 768, 0), (1920, 1080, 2), (800, 1000, 0)]:
        driver.size(width, height)
        driver.open("file://%s#turn=5&size=%d" % (page.path, size))
        at = "%d x %d, size %d: " % (width, height, size)
        c.true(at + "as wide as the window", driver.script("return document.documentElement.scrollWidth <= innerWidth"))
        c.true(at + "the verdict takes less than 30 of 100", driver.script("return document.getElementById('verdict').offsetHeight < .3 * innerHeight"))
        if size == 2:
            c.true(at + "one line", driver.script("return document.getElementById('verdict').classList.contains('folded')"))
        if page.name not in ("Many", "Uncaught"):
            c.same(at + "labels that are cut", driver.script(CUT), [])
    driver.size(1600, 1000)


TEXTS = """
const texts = [];
for (const at of ['start', 'middle', 'end']) {
  const r = document.getElementById('range'), n = Number(r.max);
  r.value = at === 'start' ? 0 : at === 'end' ? n : n >> 1;
  r.dispatchEvent(new Event('input'));
  texts.push(document.body.innerText);
}
const found = document.documentElement.querySelectorAll('img, iframe, object, embed, link, base, form, [onerror], [onload], [style*=url]');
return {scripts: document.scripts.length, foreign: found.length, title: document.title, text: texts.join('\\n'),
  titles: [...document.querySelectorAll('[title]')].map(e => e.title).join('\\n')};
"""


def check_hostile(c, driver, page):
    """Says whether names, texts, the source and the title stay texts, and whether marks of direction are escapes."""
    driver.open("file://" + page.path + "#turn=0")
    driver.key("n")
    got = driver.script(TEXTS)
    c.same("scripts", got["scripts"], 2)
    c.same("foreign elements", got["foreign"], 0)
    c.same("the title", got["title"], page.data["program"] + " - a run by jvmx")
    for text in ["</script><script>alert(1)</script> <!-- &amp; \"' \\u001b[31m\\u202etxt.exe\\u0007", "<img\\u0020src=x\\u0020onerror=alert(1)>\\u202e\"",
                 "constructor\"'&lt\\u001b\\u202e`", "__proto__", "</title><script>document.title='owned'</script>\\u202e", "ESC:\\u001b[31m RLO:\\u202e",
                 "<.script><script>document"]:
        c.true("%s is shown" % text, text in got["text"] or text in got["titles"])
    for mark in ("\u202e", "\x1b", "\x07"):
        c.true("no U+%04X" % ord(mark), mark not in got["text"] + got["titles"])


def check_refusals(c, driver, jvmx, folder):
    """Opens pages of another form, and of damaged data."""
    page = programs.make(jvmx, folder, "LostUpdate", "OtherForm", change=lambda data: data.update(form=2))
    damaged = os.path.join(folder, "Damaged.html")
    with open(page.path, encoding="utf-8") as f, open(damaged, "w", encoding="utf-8") as g:
        g.write(f.read().replace('{"form":2,', "{"))
    cut = os.path.join(folder, "Cut.html")
    with open(page.path, encoding="utf-8") as f, open(cut, "w", encoding="utf-8") as g:
        g.write(f.read().replace('{"form":2,', "{{"))
    for path, words in [(page.path, "has the form 2, and its script reads form 1"), (damaged, "has the form undefined"), (cut, "is damaged")]:
        driver.open("file://" + path)
        text = driver.script("return document.body.innerText")
        c.true("%s is refused: %s" % (os.path.basename(path), text), words in text)


def enlarge(data):
    """Gives a run much output, a long source and a line that is too long."""
    data["deltas"][5].append(["x", "41" * 65536])
    data["output_of"] = 70001
    data["sources"][0].update(text=data["sources"][0]["text"] + "x" * 5000 + "\n" * 6000, cut=1)


def check_bounds(c, driver, jvmx, folder):
    page = programs.make(jvmx, folder, "LostUpdate", "Bounds", change=enlarge)
    driver.open("file://%s#turn=%d" % (page.path, page.data["window"]["to"]))
    output = driver.script("return document.getElementById('outtext').textContent")
    c.same("the output that is shown", len(re.findall("A", output)), 19998)
    c.true("the output before", output.startswith("\u2026 45538 characters before"))
    c.true("the output that is missing: " + output[-60:], "\u2026 4463 bytes that the page doesn't have" in output)
    c.same("lines", driver.script("return document.querySelectorAll('.ln').length"), 5000)
    c.true("more lines", "more lines" in driver.script("return document.querySelector('#lines .more').textContent"))
    c.true("a long line", driver.script("return Math.max(...[...document.querySelectorAll('.ln .tx')].map(e => e.textContent.length))") < 410)


def planted(data, kind):
    """Makes one operation of a kind wrong."""
    changes = {"u": lambda o: o.__setitem__(2, o[2] + 1), "g": lambda o: o.__setitem__(3, 0 if o[3] else 1), "m": lambda o: o.__setitem__(2, 0),
               "s": lambda o: o.__setitem__(2, "Ended"), "w": lambda o: o.append(1), "x": lambda o: o.__setitem__(1, "41" + o[1])}
    found = [o for d in data["deltas"] for o in d if o[0] == kind and (kind != "m" or len(o) > 2 and o[2] != 0)]
    changes[kind](found[len(found) // 2])


def check_planted(c, driver, jvmx, folder):
    """Says whether one wrong operation is found by the comparison."""
    for kind in "ugmswx":
        page, found = programs.make(jvmx, folder, "Mailbox", "Planted", change=lambda data: planted(data, kind)), Checker()
        driver.open("file://" + page.path)
        compare_states(found, driver, jvmx, page, 1)
        c.true("a wrong operation %s is found" % kind, found.wrong)


POLICY = """
const done = arguments[arguments.length - 1], out = {}, refused = f => { try { f(); return false; } catch (e) { return e instanceof TypeError; } };
const added = document.createElement('div');
document.body.append(added);
out.markup = refused(() => { added.innerHTML = '<b>x</b>'; });
out.script = refused(() => { const s = document.createElement('script'); s.textContent = 'window.owned = 1'; added.append(s); }) && !window.owned;
added.setAttribute('style', 'color: rgb(1, 2, 3)');
out.style = getComputedStyle(added).color !== 'rgb(1, 2, 3)';
const image = document.createElement('img');
image.onload = () => done({...out, image: false});
image.onerror = () => fetch('http://127.0.0.1:9/').then(() => true, () => true).then(() => done({...out, image: true}));
image.src = 'data:image/gif;base64,R0lGODlhAQABAIAAAAAAAP///yH5BAEAAAAALAAAAAABAAEAAAIBRAA7';
added.append(image);
"""


def check_policy(c, driver, folder):
    """Says whether the policy stops what a hole in the script would need. The console has a message for each, which is right."""
    driver.open("file://%s/LostUpdate.html" % folder)
    before = driver.log()
    got = driver.post("/execute/async", {"script": POLICY, "args": []})
    c.same("the policy", got, {"markup": True, "script": True, "style": True, "image": True})
    c.same("messages before", before, [])
    c.true("messages of the policy", len(driver.log()) >= 4)


def check_race(c, driver, jvmx, folder):
    """Opens pages of races: of two turns that no edge joins, and of an edge's two turns."""
    marks = "return [...document.querySelectorAll('#drawing text')].map(t => t.textContent).filter(t => t.endsWith('race'))"
    for pair, expected in [("26,38", ["race"]), ("32,33", ["1 race"])]:
        page = programs.make(jvmx, folder, "LostUpdate", "Race", ["--race", pair])
        driver.open("file://" + page.path + "#turn=33")
        text = driver.script("return document.getElementById('verdict').innerText")
        c.true("a race is said: " + text, "Race" in text and "use LostUpdate.count" in text and "nothing orders the two" in text)
        c.same("a race is drawn", driver.script(marks), expected)


def check_window(c, driver, jvmx, folder, every):
    page = programs.make(jvmx, folder, "BoundedBuffer", "Window", ["--turns", "100..300"])
    driver.open("file://" + page.path)
    c.same("positions of a window", compare_states(c, driver, jvmx, page, every), 201)
    text = driver.script("return document.querySelector('.run').textContent")
    c.true("the window is said: " + text, "turns 100 to 300 of 2101, as asked for" in text)


SHOTS = [("LostUpdate", 1600, 1000, "turn=33"), ("Philosophers", 1600, 1000, "turn=103"), ("DoubleChecked", 1024, 768, ""), ("Mailbox", 1600, 1000, "theme=dark"),
         ("LostUpdate", 1920, 1080, "size=2"), ("Many", 1600, 1000, "turn=700"), ("Hostile", 1600, 1000, "turn=60"), ("BoundedBuffer", 1600, 1000, "turn=1200"),
         ("LostNotification", 800, 1000, ""), ("Race", 1600, 1000, "turn=33"), ("Bank", 1280, 800, "size=1&theme=dark")]


def take_shots(driver, folder, out):
    os.makedirs(out, exist_ok=True)
    for name, width, height, words in SHOTS:
        if not os.path.exists(os.path.join(folder, name + ".html")):
            continue
        driver.size(width, height)
        driver.open("file://%s/%s.html#%s" % (folder, name, words))
        time.sleep(.3)
        driver.shot(os.path.join(out, "%s-%d-%s.png" % (name, width, re.sub(r"\W", "", words))))


def check_page(driver, args, folder, name):
    """Checks one page. Returns what was wrong."""
    c, began = Checker(), time.time()
    page = programs.make(args.jvmx, folder, name)
    driver.size(1600, 1000)
    driver.open("file://" + page.path + "#turn=0")
    count = compare_states(c, driver, args.jvmx, page, args.every)
    if name != "Hostile":
        check_keys(c, driver, page)
        check_switches(c, driver)
        check_slider(c, driver, page)
        check_look(c, driver, page)
        check_sizes(c, driver, page)
    else:
        check_hostile(c, driver, page)
    messages = driver.log()
    c.same("messages on the console", messages, [])
    report(name, c, "%7d bytes, %4d positions," % (os.path.getsize(page.path), count), began)
    return len(c.wrong)


def report(name, c, more, began):
    print("%-17s %s %6d comparisons, %d wrong, %d s" % (name, more, c.count, len(c.wrong), time.time() - began), flush=True)
    for w in c.wrong[:20]:
        print("   ", w[:600], flush=True)


def main():
    parser = argparse.ArgumentParser()
    parser.add_argument("--jvmx", default="jvmx")
    parser.add_argument("--folder")
    parser.add_argument("--every", type=int, default=1)
    parser.add_argument("--shots")
    parser.add_argument("names", nargs="*")
    args = parser.parse_args()
    signal.signal(signal.SIGTERM, lambda *_: sys.exit(143))      # closes the browser too
    folder, driver, bad = os.path.abspath(args.folder or tempfile.mkdtemp(prefix="pages-")), Driver(), 0
    try:
        for name in args.names or programs.PAGES:
            if name in programs.PAGES:
                bad += check_page(driver, args, folder, name)
        if not args.names or "others" in args.names:
            c, began = Checker(), time.time()
            check_refusals(c, driver, args.jvmx, folder)
            check_bounds(c, driver, args.jvmx, folder)
            check_race(c, driver, args.jvmx, folder)
            check_planted(c, driver, args.jvmx, folder)
            check_window(c, driver, args.jvmx, folder, args.every)
            c.same("messages on the console", driver.log(), [])
            check_policy(c, driver, folder)
            report("others", c, "", began)
            bad += len(c.wrong)
        if args.shots:
            take_shots(driver, folder, args.shots)
    finally:
        driver.close()
    sys.exit(1 if bad else 0)


if __name__ == "__main__":
    main()
