#!/usr/bin/env python3
"""Times `jvmx check` on traces of some lengths, shapes and numbers of threads: for each, the seconds of reading it, events a
second of judging it, bytes a second of its text, and the memory that both take beside each other, in bytes an event.

    bench/checker.py [--jvmx PROGRAM] [--events PROGRAM] [--most EVENTS] [SHAPE...]

Reading alone is timed by the same text with a faulty line after it, which is refused before an item is judged. With the
program of crates/bench_events, which feeds a checker without a text and keeps no items, it times that instead: a text of
10,000,000 events is past 64 MiB.
"""
import argparse
import subprocess
import sys
import tempfile
from pathlib import Path

sys.dont_write_bytecode = True
HERE = Path(__file__).resolve().parent
SPEC = "atomic *\n"
LENGTHS = [10_000, 100_000, 1_000_000, 10_000_000]


def locked(threads, events):
    """Each thread calls a method that takes a lock, reads and writes what it protects, and lets it go."""
    done = 0
    while done < events:
        for t in range(1, threads + 1):
            yield f"enter {t} C.inc.()V\nacq {t} 5\nrd {t} C.x.I\nwr {t} C.x.I\nrel {t} 5\nexit {t} C.inc.()V\n"
            done += 4


def read_by_all(threads, events):
    """All threads read what is shared, and one now and then writes it."""
    done = 0
    while done < events:
        for t in range(1, threads + 1):
            yield f"enter {t} C.get.()I\nrd {t} C.x.I\nrd {t} C.y.I\nexit {t} C.get.()I\n"
            done += 2
        yield "enter 1 C.set.()V\nwr 1 C.x.I\nexit 1 C.set.()V\n"
        done += 1


def one_open(threads, events):
    """One method is open for the whole run, beside short ones of the others."""
    yield "enter 1 C.all.()V\nrd 1 C.z.I\n"
    done = 1
    while done < events:
        for t in range(2, threads + 1):
            yield f"enter {t} C.inc.()V\nacq {t} 5\nrd {t} C.x.I\nwr {t} C.x.I\nrel {t} 5\nexit {t} C.inc.()V\n"
            done += 4
    yield "exit 1 C.all.()V\n"


def one_variable(threads, events):
    """Reads and writes of one variable, in no method."""
    done = 0
    while done < events:
        for t in range(1, threads + 1):
            yield f"rd {t} C.x.I\nwr {t} C.x.I\n"
            done += 2


SHAPES = {"locked": locked, "read_by_all": read_by_all, "one_open": one_open, "one_variable": one_variable}


def measured(*words):
    printed = subprocess.run([sys.executable, HERE / "measure.py", *map(str, words)], capture_output=True, text=True)
    seconds, room = printed.stdout.split()
    return float(seconds), int(room)


def line(words, folder, shape, threads, events):
    spec, trace = folder / "spec", folder / "trace"
    spec.write_text(SPEC)
    with trace.open("w") as out:
        out.writelines(SHAPES[shape](threads, events))
    size = trace.stat().st_size
    took, room = measured(words.jvmx, "check", "--spec", spec, trace)
    with trace.open("a") as out:
        out.write("x\n")
    reading, _ = measured(words.jvmx, "check", "--spec", spec, trace)
    judging = max(took - reading, 0.0005)
    figures = f"{reading:8.3f} {size / reading / 1e6:7.1f} {judging:8.3f} {events / judging / 1e6:7.2f}"
    return f"{shape:13s} {threads:3d} {events:9d} {figures} {1024 * room / events:8.0f}"


def feeding_line(words, shape, threads, events):
    least, _ = measured(words.events, shape, threads, 0)
    took, room = measured(words.events, shape, threads, events)
    feeding = max(took - least, 0.0005)
    return f"{shape:13s} {threads:3d} {events:9d} {feeding:8.3f} {events / feeding / 1e6:7.2f} {1024 * room / events:8.0f}"


def lines(words, folder):
    for shape in words.shapes or SHAPES:
        for threads in (2, 8, 64):
            for events in (n for n in LENGTHS if n <= words.most):
                yield feeding_line(words, shape, threads, events) if words.events else line(
                    words, folder, shape, threads, events
                )


def main():
    parser = argparse.ArgumentParser(description=__doc__.split("\n")[0])
    parser.add_argument("--jvmx", default=HERE.parent / "jvmx", help="the program; else the one of this folder")
    parser.add_argument("--events", help="the program of crates/bench_events, to time feeding alone")
    parser.add_argument("--most", default=1_000_000, type=int, help="the longest traces, in events")
    parser.add_argument("shapes", nargs="*", metavar="SHAPE", help="these shapes; else all")
    words = parser.parse_args()
    head = "feed: s  M ev/s  bytes/ev" if words.events else "read: s    MB/s  judge: s  M ev/s  bytes/ev"
    print(f"shape     threads    events  {head}")
    with tempfile.TemporaryDirectory() as folder:
        for line in lines(words, Path(folder)):
            print(line, flush=True)


if __name__ == "__main__":
    main()
