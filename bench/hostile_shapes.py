"""Describes hostile inputs and lists their shapes, for bench/hostile.py and the files of shapes that it imports."""
from dataclasses import dataclass

MIB = 1 << 20
# Every shape by its name.
SHAPES = {}
# Every trial: a function of a generator of random numbers that returns a small Input. It is tried many times.
TRIALS = {}


@dataclass
class Input:
    """Files by their names, words of the command line, and what standard input has. The size is the files' and the script's
    bytes, or a count of something else where there is one."""

    files: dict
    words: list
    script: bytes = b""
    count: int = 0

    def size(self):
        return self.count or len(self.script) + sum(len(data) for data in self.files.values())


@dataclass
class Bound:
    """A size of a shape's own, a count, and the most seconds of a processor that a run of it may take."""

    count: int
    seconds: float


@dataclass
class Shape:
    """A function of a size in bytes, or of a count where there is a bound, and of a generator of random numbers, that returns
    an Input; and the answers that it may have: a code of a refusal, a status of a run, or an exit status. No answers: any."""

    make: object
    answers: tuple
    bound: Bound = None


def add(name, make, answers, bound=None):
    """Adds a shape under a name."""
    SHAPES[name] = Shape(make, answers, bound)


def shape(*answers):
    """Adds a function as the shape of its name."""
    return lambda make: add(make.__name__, make, answers) or make


def bounded(count, seconds, *answers):
    """Adds a function as the shape of its name, with a bound of a processor's seconds at a count."""
    return lambda make: add(make.__name__, make, answers, Bound(count, seconds)) or make


def trial(make):
    """Adds a function as the trial of its name."""
    TRIALS[make.__name__] = make
    return make


def encoded(files):
    """Returns files whose texts are bytes."""
    return {name: data if isinstance(data, bytes) else data.encode() for name, data in files.items()}


def until(size, part):
    """Returns a text of parts by their numbers, at least of a size."""
    parts, length = [], 0
    while length < size:
        parts.append(part(len(parts)))
        length += len(parts[-1])
    return "".join(parts)


def part_count(size, part):
    """Returns how many parts like one fill a size, at least one."""
    return max(1, size // len(part))


def flipped(data, random, most=8, below=256):
    """Returns bytes of which a few were changed to some below a number."""
    changed = bytearray(data)
    for _ in range(random.randint(1, most)):
        changed[random.randrange(len(changed))] = random.randrange(below)
    return bytes(changed)
