"""Shapes of traces, for bench/hostile.py: each is a trace that `check` judges."""
from hostile_shapes import shape, until
from hostile_texts import LARGEST, PREFIX, checked

ATOMIC, PLAIN = "atomic *\n", "plain *\n"
METHOD = "C.m.()V"
# Blocks of six units in two spellings each, that the hasher of the table of variables gives one state: std's FoldHasher, whose
# seed is fixed. They begin the name, of 102 units, of a static field of a class C. A search of minutes found them, by pairs of
# states after five units that the last unit makes one.
SAME_HASH = [
    ("nzpcb\u0800", "Pt7wb\ud625"),
    ("ddcCa\u0030", "AoRbb\ube32"),
    ("Zc4Qa\u0030", "onxhb\u515a"),
    ("7BwUc\u0030", "qxChd\u3774"),
    ("BpzEa\u0030", "h90Wa\u2347"),
    ("dV6Yc\u0030", "rNW9d\ubff4"),
    ("1mdva\u0030", "2zQ8a\u1402"),
    ("BVHpa\u0030", "bczVa\u16cb"),
    ("sBUgb\u0030", "KM5Zb\u33a4"),
    ("qz4ya\u0030", "K3vvb\ub7e8"),
    ("hKzfa\u0030", "oH2ua\u49fd"),
    ("x9Fka\u0030", "jPvta\u53a5"),
    ("Q5$Kb\u0030", "$_HWb\ucf0f"),
    ("09hcb\u0030", "WLgFb\ucd28"),
    ("1foCa\u0800", "ngQTa\ud31f"),
]
HASHED_UNITS = 102


def opened(thread, events):
    """Returns a whole transaction of a thread."""
    return f"enter {thread} {METHOD}\n{events}exit {thread} {METHOD}\n"


@shape("0")
def one_variable(size, _):
    """two threads that read and write one variable"""
    return checked(PLAIN, until(size, lambda n: f"rd {n % 2} C.x.I\nwr {n % 2} C.x.I\n"))


@shape("0")
def one_lock(size, _):
    """two threads that take one lock"""
    return checked(PLAIN, until(size, lambda n: f"acq {n % 2} 5\nrel {n % 2} 5\n"))


@shape("0")
def serial_order(size, _):
    """transactions of two threads on one lock, and their serial order"""
    rows = [opened(t, f"acq {t} 5\nwr {t} C.x.I\nrel {t} 5\n") for t in range(2)]
    return checked(ATOMIC, until(size, lambda n: rows[n % 2]), "--serial")


@shape("0")
def threads_that_read(size, _):
    """threads that each read one variable once"""
    return checked(PLAIN, until(size // 8, lambda n: f"rd {LARGEST - n} C.x.I\n"))


@shape("0")
def threads_that_write(size, _):
    """threads that each write one variable once"""
    return checked(PLAIN, until(size, lambda n: f"wr {LARGEST - n} C.x.I\n"))


@shape("0")
def threads_that_lock(size, _):
    """threads that each take one lock once"""
    return checked(ATOMIC, until(size, lambda n: opened(LARGEST - n, f"acq {LARGEST - n} 5\nrel {LARGEST - n} 5\n")))


@shape("0")
def threads_alone(size, _):
    """threads that each write a variable of their own"""
    return checked(ATOMIC, until(size, lambda n: opened(LARGEST - n, f"wr {LARGEST - n} {LARGEST - n}.C.x.I\n")))


@shape("0")
def forks_and_joins(size, _):
    """a thread that starts and joins many"""
    return checked(PLAIN, until(size, lambda n: f"fork 0 {n + 1}\nwr {n + 1} C.x.I\njoin 0 {n + 1}\n"))


@shape("0")
def nested_methods(size, _):
    """one thread with methods in methods, a read in each"""
    count = size // 50
    return checked(ATOMIC, f"enter 1 {METHOD}\nrd 1 C.x.I\n" * count + f"exit 1 {METHOD}\n" * count)


@shape("0")
def nested_plain_methods(size, _):
    """one thread with plain methods in methods, and an atomic one within"""
    count = size // 40
    trace = "enter 1 C.p.()V\n" * count + opened(1, "wr 1 C.x.I\n") + "exit 1 C.p.()V\n" * count
    return checked(f"atomic {METHOD}\n", trace)


@shape("0")
def open_methods(size, _):
    """one thread that enters and never leaves"""
    return checked(ATOMIC, until(size, lambda n: f"enter 1 C.m{n}.()V\n"))


@shape("F01")
def unmatched_exit(size, _):
    """methods that are left, and a last exit of another one"""
    return checked(ATOMIC, until(size, lambda n: opened(n % 9, "")) + opened(1, "exit 1 C.n.()V\n"))


@shape("X01")
def late_fault(size, _):
    """events, and a last line that isn't one"""
    return checked(ATOMIC, until(size, lambda n: f"wr {n % 9} C.x.I\n") + "wr\n")


@shape("X01")
def one_line(size, _):
    """one line"""
    return checked(ATOMIC, "rd 1 " + "a." * (size // 2))


def grid_row(thread):
    """Returns events of a thread at 64 variables."""
    return "".join(f"rd {thread} C.x{v}.I\nwr {thread} C.x{v}.I\n" for v in range(64))


@shape("0")
def grid(size, _):
    """transactions of 64 threads that each read and write 64 variables"""
    rows = [opened(t, grid_row(t)) for t in range(64)]
    return checked(ATOMIC, until(size, lambda n: rows[n % 64]))


@shape("0")
def grid_below_open(size, _):
    """the same, after what an open transaction wrote"""
    rows = [opened(t, grid_row(t)) for t in range(1, 64)]
    return checked(ATOMIC, f"enter 0 {METHOD}\nwr 0 C.x0.I\n" + until(size, lambda n: rows[n % 63]))


@shape("1")
def grid_with_cycle(size, _):
    """the same, and a last event of the open transaction that closes a cycle"""
    made = grid_below_open(size, _)
    made.files["trace"] += "rd 0 C.x63.I\n"
    return made


@shape("0")
def reads_by_many(size, _):
    """a thousand threads that read one variable again and again"""
    return checked(PLAIN, until(size, lambda n: f"rd {n % 1000} C.x.I\n"))


@shape("0")
def open_in_order(size, _):
    """threads with a transaction each that are all open, and end in their order"""
    count = size // 16 // 60
    begin = "".join(f"enter {t} {METHOD}\nwr {t} {t}.C.x.I\n" for t in range(count))
    return checked(ATOMIC, begin + "".join(f"exit {t} {METHOD}\n" for t in range(count)))


@shape("0")
def open_in_reverse(size, _):
    """threads with a transaction each that are all open, and end in reverse"""
    count = size // 16 // 60
    begin = "".join(f"enter {t} {METHOD}\nwr {t} {t}.C.x.I\n" for t in range(count))
    return checked(ATOMIC, begin + "".join(f"exit {t} {METHOD}\n" for t in reversed(range(count))))


@shape("0")
def moved_back(size, _):
    """an open transaction that many follow, and links that each move it and them after a new one"""
    count = size // 64 // 65
    begin = f"enter 1 {METHOD}\nwr 1 C.a.I\nenter 2 {METHOD}\nwr 2 C.b.I\n"
    after = "".join(f"rd {t} C.a.I\n" for t in range(10, 10 + count))
    moves = "".join(f"rd 3 C.b.I\nwr 3 {n}.C.c.I\nrd 1 {n}.C.c.I\n" for n in range(count))
    return checked(ATOMIC, begin + after + moves)


@shape("1")
def long_cycle(size, _):
    """open transactions in a row, and a last event that makes it a cycle of all"""
    count = size // 16 // 60
    row = [f"enter {t} {METHOD}\nrd {t} {t}.C.x.I\nwr {t} {t + 1}.C.x.I\n" for t in range(count)]
    return checked(ATOMIC, "".join(row) + f"wr 0 {count}.C.x.I\n")


@shape("0")
def long_row(size, _):
    """transactions in a row after an open one"""

    def row(number):
        thread = number % 9 + 1
        return f"rd {thread} {number}.C.x.I\nwr {thread} {number + 1}.C.x.I\n"

    return checked(ATOMIC, f"enter 0 {METHOD}\nwr 0 0.C.x.I\n" + until(size, row))


@shape("0")
def elements(size, _):
    """elements of arrays, each once"""
    return checked(PLAIN, until(size, lambda n: f"wr 1 {n % 99}[{n * 2654435761 % 2**32}]\n"))


@shape("0")
def multiples(size, _):
    """elements whose numbers are multiples of a large power of two"""
    return checked(PLAIN, until(size, lambda n: f"wr 1 {n % 4096 << 20}[{n // 4096 << 16}]\n"))


@shape("0")
def prefix_variables(size, _):
    """variables whose names share a long beginning"""
    return checked(PLAIN, until(size, lambda n: f"wr 1 C.{PREFIX}{n:06}.I\n"))


@shape("0")
def prefix_methods(size, _):
    """methods whose names share a long beginning"""
    return checked(ATOMIC, until(size, lambda n: f"enter 1 C.{PREFIX}{n:06}.()V\nexit 1 C.{PREFIX}{n:06}.()V\n"))


def escaped(text):
    """Returns a text as names are written."""
    return "".join(unit if "!" <= unit <= "~" else f"\\u{ord(unit):04x}" for unit in text)


@shape("0")
def same_hash(size, _):
    """variables whose keys have one hash for each type"""
    blocks = [[escaped(half) for half in block] for block in SAME_HASH]
    end = "a" * (HASHED_UNITS - 6 * len(blocks))

    def line(number):
        name = "".join(block[number >> bit & 1] for bit, block in enumerate(blocks)) + end
        return f"wr 1 C.{name}.{'[' * (number >> len(blocks))}I\n"

    return checked(PLAIN, until(size // 8, line))


@shape("0")
def long_names(size, _):
    """a variable of a long name, read again and again"""
    return checked(PLAIN, until(size, lambda n: f"rd {n % 2} C.{'x' * 60_000}.I\n"))
