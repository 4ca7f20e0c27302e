#!/usr/bin/env python3
"""Prints what the program of crates/random_traces has to print: the verdicts on small random traces, and what is live
after many writes of one thread.

    bench/plain_reading.py > crates/random_traces/stdout

The traces are made here once more, by the same draws of the same words, those of PCG32 (XSH RR, 64 bits of state).
Each is judged as the definitions read: by all pairs of events and all paths of edges, and anew for each prefix.
"""
from collections import namedtuple

HOW_MANY = 3000
MANY_WRITES = 100_000

# A line of a trace: what happened, of which thread, to what. An event has its number and that of its transaction.
Item = namedtuple("Item", "word thread what")
Event = namedtuple("Event", "number transaction item")
# From the entry of an outermost atomic method to its exit, or to the end of the trace, where it is open.
Span = namedtuple("Span", "thread first last is_open")


class Words:
    """The words of a generator: O'Neill, PCG, 2014, pcg32_random_r as it is published."""

    def __init__(self, state, stream):
        self.state = 0
        self.increment = (2 * stream + 1) % 2**64
        self.word()
        self.state = (self.state + state) % 2**64
        self.word()

    def word(self):
        old = self.state
        self.state = (old * 6364136223846793005 + self.increment) % 2**64
        shifted = ((old >> 18 ^ old) >> 27) % 2**32
        turned = old >> 59
        return (shifted >> turned | shifted << (32 - turned) % 32) % 2**32

    def below(self, count):
        return self.word() % count

    def one_of(self, choices):
        return choices[self.below(len(choices))]


# ---- The traces

SPECS = ["atomic *\n"] * 3 + ["atomic C.m\n"] * 4 + ["plain *\n"]
THREADS = ["0", "1", "2"]
VARIABLES = ["C.x.I", "C.y.I", "7.C.x.I"]
MONITORS = ["5", "6"]
METHODS = ["C.m.()V", "C.n.()V"]
MARK = "mark"
KINDS = ["rd"] * 3 + ["wr"] * 3 + ["acq", "rel", "fork", "join"] + [MARK] * 4
TOUCHED = {"rd": VARIABLES, "wr": VARIABLES, "acq": MONITORS, "rel": MONITORS, "fork": THREADS, "join": THREADS}
MOST_STEPS = 24


def random_item(words, opened):
    thread, kind = words.one_of(THREADS), words.one_of(KINDS)
    if kind != MARK:
        return Item(kind, thread, words.one_of(TOUCHED[kind]))
    leaves = words.below(2) == 0
    if leaves and opened[thread]:
        return Item("exit", thread, opened[thread].pop())
    opened[thread].append(words.one_of(METHODS))
    return Item("enter", thread, opened[thread][-1])


def random_trace(words):
    spec = words.one_of(SPECS)
    opened = {thread: [] for thread in THREADS}
    return spec, [random_item(words, opened) for _ in range(words.below(MOST_STEPS + 1))]


# ---- Specifications: the last line that matches decides, and without one a method is plain


def matches(pattern, method):
    """Whether a pattern `*`, `C.*`, `C.m` or `C.m.D` is of a method `C.m.D`."""
    named = method.split(".")
    return pattern in ("*", f"{named[0]}.*", f"{named[0]}.{named[1]}", method)


def is_atomic(spec, method):
    said = [line.split(" ") for line in spec.splitlines()]
    return ["plain", *(word for word, pattern in said if matches(pattern, method))][-1] == "atomic"


# ---- Transactions


def exit_of(items, first):
    """The place of the exit that matches an entry; None where the method is open."""
    depth = 0
    for place in range(first, len(items)):
        if items[place].thread == items[first].thread:
            depth += {"enter": 1, "exit": -1}.get(items[place].word, 0)
            if depth == 0:
                return place
    return None


def spans_of(spec, items):
    """The spans of the atomic methods that no other atomic one of their thread is around."""
    spans = []
    for place, item in enumerate(items):
        inside = any(span.thread == item.thread and place < span.last for span in spans)
        if item.word == "enter" and is_atomic(spec, item.what) and not inside:
            last = exit_of(items, place)
            spans.append(Span(item.thread, place, len(items) if last is None else last, last is None))
    return spans


def span_around(spans, place, item):
    return next((s for s in spans if s.thread == item.thread and s.first < place < s.last), None)


def events_of(spans, items):
    """The events: those of a span are one transaction, each other one is one alone. They are numbered from 1, by their
    first events."""
    numbers, events = {}, []
    for place, item in enumerate(items):
        if item.word not in ("enter", "exit"):
            transaction = numbers.setdefault(span_around(spans, place, item) or place, len(numbers) + 1)
            events.append(Event(len(events) + 1, transaction, item))
    return events


# ---- Edges and cycles


def conflict(a, b):
    """Of one thread; on one monitor; on one variable, with a write among them; one a fork or a join of the other's."""
    words = {a.word, b.word}
    return (
        a.thread == b.thread
        or (words <= {"acq", "rel"} and a.what == b.what)
        or (words <= {"rd", "wr"} and a.what == b.what and "wr" in words)
        or (a.word in ("fork", "join") and a.what == b.thread)
        or (b.word in ("fork", "join") and b.what == a.thread)
    )


def edges_of(events):
    """From transaction to transaction: an event of one is before an event of another one, and conflicts with it."""
    return {
        (e.transaction, f.transaction)
        for e in events
        for f in events
        if e.number < f.number and e.transaction != f.transaction and conflict(e.item, f.item)
    }


def closure(edges):
    """From where to where edges lead, one or more."""
    paths = set(edges)
    while True:
        longer = {(a, d) for a, b in paths for c, d in edges if b == c} - paths
        if not longer:
            return paths
        paths |= longer


def has_cycle(events):
    return any(a == b for a, b in closure(edges_of(events)))


def first_at(events):
    """The least number of events whose trace has a cycle."""
    return next((n for n in range(len(events) + 1) if has_cycle(events[:n])), None)


def live(spans, items, events):
    """How many transactions open ones reach. An open one reaches itself."""
    places = [place for place, item in enumerate(items) if item.word not in ("enter", "exit")]
    around = [span_around(spans, place, items[place]) for place in places]
    reached = {e.transaction for e, span in zip(events, around) if span is not None and span.is_open}
    if reached:
        reached |= {b for a, b in closure(edges_of(events)) if a in reached}
    return len(reached)


# ---- What is printed


def verdict(spec, items):
    spans = spans_of(spec, items)
    events = events_of(spans, items)
    counts = f"events {len(events)} transactions {max((e.transaction for e in events), default=0)}"
    first = first_at(events)
    if first is None:
        return f"atomic {counts} live {live(spans, items, events)} serial"
    return f"cycle at {first} {counts}"


def main():
    words = Words(42, 54)
    for _ in range(HOW_MANY):
        print(verdict(*random_trace(words)))
    writes = [Item("wr", "1", "C.x.I")] * MANY_WRITES
    spans = spans_of("plain *\n", writes)
    events = events_of(spans, writes)
    print(f"{len(events)} writes live {live(spans, writes, events)}")


if __name__ == "__main__":
    main()
