"""What failing_memory.py runs: for each name the program, its words, its standard input, the folder in which it runs, and what
has to be refused in some of its runs: calls by their names, or a command with these ends of its last line."""
from pathlib import Path
from typing import NamedTuple

ROOT = Path(__file__).resolve().parent.parent
EXAMPLES = ROOT / "examples"
THREADS = EXAMPLES / "threads"
CRATES = ROOT / "crates"
TRACE = """enter 1 LostUpdate.inc.()V
rd 1 LostUpdate.count.I
enter 2 LostUpdate.inc.()V
rd 2 LostUpdate.count.I
wr 1 LostUpdate.count.I
exit 1 LostUpdate.inc.()V
wr 2 LostUpdate.count.I
exit 2 LostUpdate.inc.()V
"""
# What `debug` reads from standard input.
SCRIPT = """break LostUpdate.inc.()V 3
continue
threads
frames 2
class LostUpdate
object 0
back 5
pick 2
goto 40
rcontinue
trace
output
"""


class Case(NamedTuple):
    """A run of a program."""

    program: str
    words: list
    script: str
    folder: Path
    refusable: tuple = ()


# How a command is refused in some of its runs: memory ran out in its script, and before it.
REFUSALS = {"debug": ("S03 Memory", "M03 Memory")}
# What a refused call says, where that is the text of its error.
SAID = {"command": "B07 Memory"}


def commands(folder):
    """Returns the commands of jvmx. They write into a folder."""
    source, spec, trace = THREADS / "LostUpdate.j", THREADS / "atomic.spec", folder / "trace"
    trace.write_text(TRACE)
    gcd = ["--entry", "G.gcd.(II)I", "--args", "48,36", EXAMPLES / "G.class"]
    run = ["run", "--entry", "LostUpdate", "--spec", spec, source]
    words = {
        "check, a cycle": ["check", "--spec", spec, trace],
        "run --spec, a cycle": run,
        "run --spec, atomic": [*run, "--sched", "rr:99"],
        "campaign": ["campaign", *run[1:], "--jobs", "4", "--workers", "1"],
        "explore": ["explore", *run[1:], "--workers", "1"],
        "trace": ["trace", "--entry", "LostUpdate", "--sched", "seed:1:2", source],
        "debug": ["debug", "--entry", "LostUpdate", source],
        "eval": ["eval", *gcd],
        "asm": ["asm", EXAMPLES / "G.j", folder / "G.class"],
        "list": ["list", EXAMPLES / "G.class"],
    }
    return {name: Case("jvmx", words, SCRIPT, folder, REFUSALS.get(name, ())) for name, words in words.items()}


# The calls of each part, as `repeated_calls` names them; `serial` only of an atomic trace.
INPUTS = ("words", "classes", "file", "link")
TURNS = (*INPUTS, "read", "Machine::new", "step", "copy", "trace", "threads", "output")
CHECKS = ("Spec::read", "Checker::new", "feed", "verdict")
REFUSABLE = {
    "reading": (*INPUTS, "name", "source", "assemble", "read", "list", "write"),
    "turns": (*TURNS, *CHECKS),
    "judgements": ("words", "inputs", "file", "Spec::read", "judge", "trace"),
    "sessions": (*INPUTS, "read", "arguments", "script", "Session::new", "command", "answer"),
    "campaigns": (*INPUTS, "read", "Spec::read", "run_campaign", "table_text"),
    "explorations": (*INPUTS, "read", "Spec::read", "explore", "answer_text", "shrink", "schedule_text"),
}


def calls_of(part, words=None, others=()):
    """Returns a run of `repeated_calls` on a part of the words that its crate has for it, else on these words. `others` are
    calls that it makes besides."""
    crate = CRATES / "repeated_calls"
    parts = [part.splitlines() for part in (crate / "args").read_text().split("--\n")]
    given = next(given for given in parts if given[0] == part)
    words, refusable = [part, *words] if words else given, (*REFUSABLE[part], *others)
    return Case(crate.name, words, (crate / "stdin").read_text(), crate / "data", refusable)


def calls():
    """Returns the runs of the program that makes calls of the libraries, each on a small input."""
    lost_update = ["LostUpdate", "LostUpdate.class"]
    return {
        "reading": calls_of("reading"),
        "turns, exceptions": calls_of("turns", others=["serial"]),
        "turns, a cycle": calls_of("turns", ["atomic LostUpdate.inc", *lost_update]),
        "turns, atomic": calls_of("turns", ["plain *", *lost_update], others=["serial"]),
        "judgement": calls_of("judgements"),
        "session": calls_of("sessions"),
        "campaign of 4 jobs, 1 worker": calls_of("campaigns"),
        "campaign of 2 jobs, 2 workers": calls_of("campaigns", ["2", "2", "atomic LostUpdate.inc", *lost_update]),
        "exploration of 2 departures, 1 worker": calls_of("explorations"),
    }
