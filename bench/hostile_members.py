"""Shapes of classes of many members, of deep hierarchies, and of many lines beside many methods, for bench/hostile.py. Each
has a size of its own, a count, and a bound: the most seconds of a processor at that count."""
from class_files import GIVE_7, Pool, class_file, counted, method, u2, u4
from hostile_classes import entry, member, reference
from hostile_runs import INIT, THREAD, main_of, run_of
from hostile_shapes import Input, bounded

GETSTATIC, INVOKESTATIC, INVOKEINTERFACE = b"\xb2", b"\xb8", b"\xb9\1\0"
RETURN = b"\xb1"
STATIC = 8
# The most references of one class: each takes three of the 65,534 numbers of its pool.
MOST_REFERENCES = 15_000
TURNS = 200_000


# ---- Initialisation


def constants(count):
    """Returns a source of a class of static fields, each with a constant."""
    return ".class C\n" + "".join(f".field static x{n} I = {n % 1000}\n" for n in range(count))


@bounded(40_000, 0.6, "0")
def initialised_constants(count, _):
    """a class of static fields with constants, which a run initialises"""
    return run_of({"M.j": main_of("getstatic C/x0 I\npop\nreturn\n"), "C.j": constants(count)}, count=count)


@bounded(20_000, 1.4, "0")
def constants_of_each_job(count, _):
    """jobs of a campaign that each initialise a class of 1,000 constants"""
    files = {"M.j": main_of("getstatic C/x0 I\npop\nreturn\n"), "C.j": constants(1000), "spec": "atomic *\n"}
    return run_of(files, "--spec", "spec", "--jobs", str(count), count=count, command="campaign")


# ---- Members that are found


def naming(count, tag, opcode, name):
    """Returns class files whose instructions name as many members, which a function of a number gives."""
    files = []
    for first in range(0, count, MOST_REFERENCES):
        pool = Pool()
        named = [reference(pool, tag, *name(n)) for n in range(first, min(count, first + MOST_REFERENCES))]
        body = b"".join(opcode[:1] + u2(number) + opcode[1:] for number in named) + GIVE_7
        files.append(class_file(pool, f"U{first}", [method(pool, "f", "()I", 9, 9, body)], []))
    return files


def beside(count, files, words):
    """Returns a command on class files and a class E with a method f()I."""
    every = {f"{number}.class": data for number, data in enumerate(files)} | {"E.class": entry()}
    return Input(every, [*words, *every], count=count)


LINKED = ["run", "--entry", "E.f.()I", "--max", "0"]
NEEDS = ["needs"]


def fields(count):
    """Returns class files of a class of static fields, and of what names them."""
    pool = Pool()
    of_c = [member(pool, STATIC, f"x{n}", "I") for n in range(count)]
    return [class_file(pool, "C", [], [], of_c), *naming(count, 9, GETSTATIC, lambda n: ("C", f"x{n}", "I"))]


def parameters(number):
    """Returns a descriptor whose parameters spell a number to base five."""
    return "(" + "".join("ZBCSI"[number // 5**digit % 5] for digit in range(7)) + ")V"


def overloads(count):
    """Returns class files of a class of static methods of one name, and of what names them."""
    pool = Pool()
    methods = [method(pool, "f", parameters(n), 0, 7, RETURN) for n in range(count)]
    return [class_file(pool, "C", methods, []), *naming(count, 10, INVOKESTATIC, lambda n: ("C", "f", parameters(n)))]


def inherited_fields(count):
    """Returns class files of an interface of fields, of a class that has them by a chain of ten, and of what names them."""
    pool = Pool()
    of_i = [member(pool, 0x19, f"x{n}", "I") for n in range(count)]
    chain = [class_file(Pool(), f"J{n}", [], [], interfaces=[f"J{n - 1}" if n else "I"], flags=0x600) for n in range(10)]
    lowest = class_file(Pool(), "C", [], [], interfaces=["J9"])
    names = naming(count, 9, GETSTATIC, lambda n: ("C", f"x{n}", "I"))
    return [class_file(pool, "I", [], [], of_i, flags=0x600), *chain, lowest, *names]


@bounded(16_000, 0.2, "Running")
def found_fields(count, _):
    """fields of one class, each named once and linked"""
    return beside(count, fields(count), LINKED)


@bounded(16_000, 0.2, "0")
def needed_fields(count, _):
    """fields of one class, each named once, of which needs finds each"""
    return beside(count, fields(count), NEEDS)


@bounded(16_000, 0.3, "Running")
def found_overloads(count, _):
    """methods of one name, each named once and linked"""
    return beside(count, overloads(count), LINKED)


@bounded(16_000, 0.6, "0")
def needed_overloads(count, _):
    """methods of one name, each named once, of which needs finds each"""
    return beside(count, overloads(count), NEEDS)


@bounded(16_000, 0.3, "Running")
def found_through_interfaces(count, _):
    """fields of an interface, each named once by a class that has them through ten others"""
    return beside(count, inherited_fields(count), LINKED)


# ---- Deep hierarchies


def chain(count, top, body):
    """Returns a run of a main below so many classes, the topmost of which is this source."""
    classes = {f"C{n}.j": f".class C{n}\n.super C{n - 1}\n" for n in range(1, count)}
    text = main_of(body, head=f".class M\n.super C{count - 1}\n")
    return run_of({"C0.j": top, **classes, "M.j": text}, "--max", str(TURNS), count=count)


@bounded(900, 0.3, "Running")
def field_above(count, _):
    """200,000 turns on a field that is declared in the topmost class of a chain, by the chain's length"""
    body = "new M\nastore 1\nLOOP:\naload 1\ngetfield M/x I\npop\ngoto LOOP\n"
    return chain(count, ".class C0\n.field x I\n", body)


@bounded(900, 0.3, "Running")
def method_above(count, _):
    """200,000 turns of calls of a method that is declared in the topmost class of a chain, by the chain's length"""
    top = ".class C0\n.method f()V\n.limit locals 1\nreturn\n.end method\n"
    return chain(count, top, "new M\nastore 1\nLOOP:\naload 1\ninvokevirtual M/f()V\ngoto LOOP\n")


@bounded(900, 0.3, "Running")
def cast_to_topmost(count, _):
    """200,000 turns of checkcast to the topmost class of a chain, by the chain's length"""
    return chain(count, ".class C0\n", "new M\nastore 1\nLOOP:\naload 1\ncheckcast C0\npop\ngoto LOOP\n")


# ---- Threads


@bounded(60, 0.1, "Running")
def turns_beside_blocked(count, _):
    """400,000 turns by round beside threads that wait for one monitor, by their number"""
    start = "".join("new M\ndup\ninvokespecial M/<init>()V\ninvokevirtual M/start()V\n" for _ in range(count))
    run = ".method public run()V\n.limit stack 1\nldc M\nmonitorenter\nreturn\n.end method\n"
    body = f"ldc M\nmonitorenter\n{start}LOOP:\nnop\ngoto LOOP\n"
    return run_of({"M.j": main_of(body, INIT + run, THREAD)}, "--sched", "rr:1", "--max", "400000", count=count)


# ---- The debugger


def many_fields(count, flags):
    """Returns a class file of a class C of many fields."""
    pool = Pool()
    return class_file(pool, "C", [], [], [member(pool, flags, f"x{n}", "I") for n in range(count)])


@bounded(32_000, 0.5, "0")
def class_shown(count, _):
    """the static fields of one class, shown"""
    files = {"M.j": main_of("return\n"), "C.class": many_fields(count, STATIC)}
    return run_of(files, count=count, command="debug", script="class C\n")


@bounded(32_000, 0.5, "0")
def object_shown(count, _):
    """the fields of one object, shown"""
    files = {"M.j": main_of("new C\npop\nreturn\n"), "C.class": many_fields(count, 0)}
    script = "goto 2\n" + "".join(f"object {n}\n" for n in range(1, 8))
    return run_of(files, count=count, command="debug", script=script)


def class_of_methods(count):
    """Returns a class file of a class C of many methods."""
    pool = Pool()
    return class_file(pool, "C", [method(pool, f"m{n}", "()I", 1, 0, GIVE_7) for n in range(count)], [])


@bounded(16_000, 0.4, "0")
def breakpoints_of_methods(count, _):
    """a breakpoint in each method of one class"""
    files = {"M.j": main_of("return\n"), "C.class": class_of_methods(count)}
    script = "".join(f"break C.m{n}.()I 0\n" for n in range(count))
    return run_of(files, count=count, command="debug", script=script)


# ---- Specifications


def with_specification(count, files, lines):
    """Returns needs on class files and a specification."""
    made = beside(count, files, ["needs", "--spec", "spec"])
    made.files["spec"] = "".join(lines).encode()
    return made


@bounded(16_000, 0.5, "1")
def lines_beside_methods(count, _):
    """lines of methods that aren't there beside as many methods of their class"""
    return with_specification(count, [class_of_methods(count)], (f"atomic C.n{n}\n" for n in range(count)))


@bounded(6_000, 0.5, "1")
def lines_beside_classes(count, _):
    """lines of classes that aren't there beside as many classes"""
    classes = [class_file(Pool(), f"C{n}", [], []) for n in range(count)]
    return with_specification(count, classes, (f"atomic B{n}.*\n" for n in range(count)))


# ---- Tables of parts


@bounded(80_000, 2.0, "0")
def joined_parts(count, _):
    """the tables of parts of a campaign, each of one job, joined from the last to the first"""
    ending = "atomic status Finished turns 3 events 0\njobs 1 atomic 1 cycle 0\n"
    parts = {f"{number}": f"job {number} {ending}".encode() for number in range(count)}
    return Input(parts, ["tables", *reversed(parts)], count=count)


# ---- What needs says


@bounded(8_000, 0.5, "1")
def missing_beside_lines(count, _):
    """missing names of one method beside a table of as many lines"""
    pool = Pool()
    named = [reference(pool, 10, "Gone", f"f{n}", "()V") for n in range(count)]
    body = b"".join(INVOKESTATIC + u2(number) for number in named) + GIVE_7
    rows = counted([u2(3 * n) + u2(n + 1) for n in range(count)])
    table = u2(pool.text("LineNumberTable")) + u4(len(rows)) + rows
    source = u2(pool.text("SourceFile")) + u4(2) + u2(pool.text("C.java"))
    only = method(pool, "f", "()I", 9, 9, body, attributes=[table])
    return beside(count, [class_file(pool, "C", [only], [source])], NEEDS)
