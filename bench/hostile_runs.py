"""Shapes of runs and campaigns, for bench/hostile.py. Their sizes are mostly counts: of turns, of
objects, of jobs. A run of a size of 1 MiB takes some thousands of turns where each takes long, else some millions."""
from class_files import Pool, class_file, method, u2
from hostile_classes import GIVE_7, reference
from hostile_linking import classes_in_chain, interfaces_in_chain
from hostile_shapes import MIB, Input, encoded, shape
from hostile_texts import BODY, PREFIX
from hostile_texts import method as int_method

MAIN = ".method static main([Ljava/lang/String;)V\n.limit stack 9\n.limit locals 9\n"
MOST_TURNS = 100_000_000


def turns(size, a_mib):
    """Returns the number of turns for a size, at `a_mib` turns for a MiB."""
    return min(MOST_TURNS, max(1, size * a_mib // MIB))


def main_of(body, after="", head=".class M\n"):
    """Returns a source of a class M with a main and what comes after it."""
    return f"{head}{MAIN}{body}.end method\n{after}"


def run_of(files, *words, count=0, command="run", script=""):
    """Returns the run of the class M, with these words."""
    names = [name for name in files if name.endswith((".j", ".class"))]
    return Input(encoded(files), [command, "--entry", "M", *words, *names], script.encode(), count)


def looped(size, a_mib, body, before="", after="", *words, files=()):
    """Returns a run of a main that repeats a body until its turns are up."""
    count = turns(size, a_mib)
    text = main_of(f"{before}LOOP:\n{body}goto_w LOOP\n", after)
    return run_of({"M.j": text, **dict(files)}, "--max", str(count), *words, count=count)


START = """iconst_0
istore 1
NEXT:
iload 1
bipush 63
if_icmpge STARTED
new M
dup
invokespecial M/<init>()V
invokevirtual M/start()V
iinc 1 1
goto NEXT
STARTED:
"""
THREAD = ".class M\n.super java/lang/Thread\n"
INIT = ".method <init>()V\naload_0\ninvokespecial java/lang/Thread/<init>()V\nreturn\n.end method\n"


def threads(size, a_mib, body, *words, command="run"):
    """Returns a run of 63 threads that each repeat a body until the turns are up."""
    count = turns(size, a_mib)
    run = f".method public run()V\n.limit stack 9\n.limit locals 9\nLOOP:\n{body}goto LOOP\n.end method\n"
    more = ".method static synchronized lock()V\nreturn\n.end method\n"
    text = main_of(START + "return\n", INIT + run + more + ".field static x I\n", THREAD)
    return run_of({"M.j": text, "spec": "atomic M.lock\n"}, "--max", str(count), *words, count=count, command=command)


# ---- Threads and monitors


@shape("Running")
def threads_by_seed(size, _):
    """64 threads under a random schedule"""
    return threads(size, 50_000, "nop\n", "--sched", "seed:1:1")


@shape("Running")
def threads_by_round(size, _):
    """64 threads, one turn each by round"""
    return threads(size, 1_000_000, "nop\n", "--sched", "rr:1")


@shape("Running")
def contended_lock(size, _):
    """64 threads that call one synchronized method"""
    return threads(size, 50_000, "invokestatic M/lock()V\n", "--sched", "rr:1")


@shape("Running")
def contended_lock_judged(size, _):
    """the same, with a verdict"""
    return threads(size, 50_000, "invokestatic M/lock()V\n", "--sched", "rr:1", "--spec", "spec")


@shape("1")
def shared_variable_traced(size, _):
    """64 threads that read and write one variable, traced"""
    body = "getstatic M/x I\nputstatic M/x I\n"
    return threads(size, 200_000, body, "--sched", "rr:1", command="trace")


@shape("Running")
def nested_monitor(size, _):
    """one monitor, entered again and again and never left"""
    return looped(size, 500_000, "aload_0\nmonitorenter\n")


@shape("Running")
def many_monitors(size, _):
    """monitors of objects of their own, none of which is left"""
    init = "java/lang/Object/<init>()V"
    return looped(size, 500_000, f"new java/lang/Object\ndup\ninvokespecial {init}\nmonitorenter\n")


# ---- Objects


@shape("Running")
def large_heap(size, _):
    """a list of objects, as many as may be"""
    body = "new M\ndup\ninvokespecial java/lang/Object/<init>()V\ndup\naload 1\nputfield M/next LM;\nastore 1\n"
    return looped(size, 1_000_000, body, "aconst_null\nastore 1\n", ".field next LM;\n")


@shape("Running")
def arrays_of_arrays(size, _):
    """arrays of arrays of arrays, made until the limits and beyond"""
    body = "bipush 9\nbipush 9\nbipush 9\nA:\nmultianewarray [[[I 3\nB:\npop\ngoto LOOP\nC:\npop\n"
    return looped(size, 10_000, body, ".catch all from A to B using C\n")


@shape("Running")
def large_arrays(size, _):
    """arrays of the most elements, made until the limits and beyond"""
    body = "ldc 1000000\nA:\nnewarray int\nB:\npop\ngoto LOOP\nC:\npop\n"
    return looped(size, 100_000, body, ".catch all from A to B using C\n")


@shape("Running")
def many_fields_each(size, _):
    """objects of ten thousand fields each, as many as may be"""
    fields = "".join(f".field x{n} I\n" for n in range(10_000))
    return looped(size, 2000, "new M\npop\n", "", fields)


# ---- Calls and exceptions


@shape("Running")
def deep_recursion(size, _):
    """a method that calls itself until the stack overflows, again and again"""
    after = ".method static r()V\ninvokestatic M/r()V\nreturn\n.end method\n"
    body = "A:\ninvokestatic M/r()V\nB:\ngoto LOOP\nC:\npop\n"
    return looped(size, 1_000_000, body, ".catch all from A to B using C\n", after)


@shape("Running")
def thrown_through_frames(size, _):
    """an exception thrown through a thousand frames with a handler each that throws it again"""
    after = """.method static r(I)V
.limit stack 2
.catch all from A to B using B
A:
iload_0
ifle THROW
iload_0
iconst_1
isub
invokestatic M/r(I)V
return
THROW:
aconst_null
athrow
B:
athrow
.end method
"""
    body = "A:\nsipush 1000\ninvokestatic M/r(I)V\nB:\ngoto LOOP\nC:\npop\n"
    return looped(size, 1_000_000, body, ".catch all from A to B using C\n", after)


@shape("Running")
def many_rows(size, _):
    """an exception that passes 65,000 rows of a table, again and again"""
    rows = ".catch java/lang/Error from A to B using C\n" * 65_000 + ".catch all from A to B using C\n"
    return looped(size, 100, "A:\naconst_null\nathrow\nB:\nnop\nC:\npop\n", rows)


@shape("Running")
def large_switch(size, _):
    """a lookupswitch of 8,000 pairs, whose last is taken"""
    pairs = "".join(f"{n} : D\n" for n in range(8000))
    return looped(size, 1_000_000, f"sipush 7999\nlookupswitch\n{pairs}default : D\nD:\n")


# ---- Hierarchies


def above(hierarchy, size, body):
    """Returns a run of a class M below the lowest of a hierarchy, whose main repeats an instruction."""
    files = hierarchy(size // 16)
    lowest = f"{'I' if hierarchy is interfaces_in_chain else 'C'}{len(files) - 1}"
    kind = f".implements {lowest}\n" if hierarchy is interfaces_in_chain else f".super {lowest}\n"
    if hierarchy is interfaces_in_chain:
        kind = f".super java/lang/Object\n{kind}"
    text = main_of(f"new M\nastore 1\nLOOP:\n{body}goto LOOP\n", head=f".class M\n{kind}")
    named = {f"{number}.class": data for number, data in enumerate(files)} | {"M.j": text}
    return run_of(named, "--max", "100000", count=len(files))


@shape("Running")
def tests_of_interfaces(size, _):
    """100,000 turns of instanceof of the highest interface of a chain, by the chain's length"""
    return above(interfaces_in_chain, size, "aload 1\ninstanceof I0\npop\n")


@shape("Running")
def tests_of_missing_class(size, _):
    """100,000 turns of instanceof of an interface that isn't above, by the chain's length"""
    return above(interfaces_in_chain, size, "aload 1\ninstanceof java/lang/Runnable\npop\n")


@shape("0", "1")
def initialised_chain(size, _):
    """a class whose superclasses are all to be initialised"""
    files = classes_in_chain(size // 16)
    text = main_of("return\n", head=f".class M\n.super C{len(files) - 1}\n")
    return run_of({f"{number}.class": data for number, data in enumerate(files)} | {"M.j": text}, count=len(files))


@shape("0")
def initialised_classes(size, _):
    """classes that each initialise the next"""

    def make(number):
        pool = Pool()
        other = reference(pool, 10, f"C{number + 1}", "f", "()I")
        calls = b"\xb8" + u2(other) + b"\x57" if number % 200 and number < count else b""
        bodies = [method(pool, "f", "()I", 1, 0, GIVE_7), method(pool, "<clinit>", "()V", 1, 0, calls + b"\xb1")]
        return class_file(pool, f"C{number}", bodies, [])

    count = size // 16 // 200
    every = "".join(f"invokestatic C{number}/f()I\npop\n" for number in range(0, count, 9))
    files = {f"{number}.class": make(number) for number in range(count + 1)}
    return run_of({**files, "M.j": main_of(every + "return\n")}, count=count)


# ---- Texts


def printing(value, how):
    """Returns lines that print what an instruction pushes."""
    stream = "java/io/PrintStream"
    return f"getstatic java/lang/System/out L{stream};\n{value}\ninvokevirtual {stream}/{how}\n"


@shape("Running")
def long_output(size, _):
    """a long text, printed again and again"""
    text = "x" * 60_000
    return looped(size, 1000, printing(f'ldc "{text}"', "print(Ljava/lang/String;)V"))


@shape("Running")
def short_output(size, _):
    """a number, printed again and again"""
    return looped(size, 1_000_000, printing("iconst_1", "println(I)V"))


@shape("0")
def string_objects(size, _):
    """strings that share a long beginning, each made once"""
    count = size // (len(PREFIX) + 20)
    lines = [f'ldc "{PREFIX}{n}"\npop\n' for n in range(count)]
    parts = ["".join(lines[n : n + 10_000]) for n in range(0, count, 10_000)]
    more = "".join(int_method(f"m{n}", part + BODY) for n, part in enumerate(parts))
    calls = "".join(f"invokestatic M/m{n}()I\npop\n" for n in range(len(parts)))
    return run_of({"M.j": main_of(calls + "return\n", more)}, "--max", str(MOST_TURNS))


@shape("1")
def long_names_traced(size, _):
    """a field of a class with a name of the most bytes, traced"""
    name = "n" * 60_000
    other = f".class {name}\n.field static x I\n"
    return renamed(looped(size, 1000, f"getstatic {name}/x I\npop\n", files={"N.j": other}), "trace")


@shape("Running")
def long_names_judged(size, _):
    """the same, with a verdict"""
    name = "n" * 60_000
    files = {"N.j": f".class {name}\n.field static x I\n", "spec": "atomic *\n"}
    return looped(size, 20_000, f"getstatic {name}/x I\npop\n", "", "", "--spec", "spec", files=files)


def renamed(made, command):
    """Returns an input with another command."""
    made.words[0] = command
    return made


# ---- Campaigns


def campaign_of(size, a_mib, *words):
    """Returns a campaign of jobs of a few turns."""
    count = min(1_000_000, max(1, size * a_mib // MIB))
    files = {"M.j": main_of("getstatic M/x I\npop\nreturn\n", ".field static x I\n"), "spec": "atomic *\n"}
    return run_of(files, "--spec", "spec", "--jobs", str(count), *words, count=count, command="campaign")


@shape("0")
def many_jobs(size, _):
    """jobs of a few turns each"""
    return campaign_of(size, 20_000)


@shape("0")
def many_workers(size, _):
    """jobs of a few turns each, on 64 workers"""
    return campaign_of(size, 20_000, "--workers", "64")


@shape("1")
def long_jobs(size, _):
    """jobs of 64 threads and a lock"""
    return threads(size, 5000, "invokestatic M/lock()V\n", "--spec", "spec", "--jobs", "9", command="campaign")
