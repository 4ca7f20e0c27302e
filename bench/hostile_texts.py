"""Shapes for the reader of sources and the assembler, for specifications and for traces, for bench/hostile.py."""
from pathlib import Path

from hostile_shapes import Input, flipped, part_count, shape, trial, until

EXAMPLES = Path(__file__).resolve().parent.parent / "examples"
MOST = 65_535
PREFIX = "p" * 1000
LARGEST = 4_294_967_295
HEAD = ".class A\n"
BODY = "bipush 7\nireturn\n"


def asm_of(text):
    """Returns the assembly of a source."""
    return Input({"A.j": text}, ["asm", "A.j", "A.class"])


def method(name, body):
    """Returns a method of these lines."""
    return f".method static {name}()I\n.limit stack 4\n.limit locals 4\n{body}.end method\n"


def methods(size, body):
    """Returns the assembly of methods of one body, until they have a size."""
    return asm_of(HEAD + until(size, lambda n: method(f"m{n}", body)))


# ---- Lines


@shape("J11")
def empty_lines(size, _):
    """a source of empty lines"""
    return asm_of("\n" * size)


@shape("J11")
def comments(size, _):
    """a source of comments"""
    return asm_of("; a\n" * part_count(size, "; a\n"))


@shape("J11")
def one_comment(size, _):
    """a source of one comment"""
    return asm_of(";" * size + "\n")


@shape("J11")
def tabs_and_returns(size, _):
    """lines of tabs and spaces that end in CR LF"""
    return asm_of("\t \t\r\n" * part_count(size, "\t \t\r\n"))


@shape()
def lone_returns(size, _):
    """one line of CR without LF"""
    return asm_of(HEAD + "\r" * size)


@shape("J01")
def open_text(size, _):
    """a text that isn't closed on its line"""
    return asm_of(HEAD + method("f", f'ldc "{"a" * size}\n'))


@shape("J01")
def open_texts(size, _):
    """texts that are, and a last one that isn't"""
    line = 'ldc "a\\n"\n'
    return asm_of(HEAD + ".method static f()I\n" + line * part_count(size, line) + 'ldc "')


@shape("J06")
def many_operands(size, _):
    """an instruction of many operands"""
    return asm_of(HEAD + method("f", "iload" + " 1" * (size // 2) + "\n"))


@shape()
def many_colons(size, _):
    """a line of colons and equal signs"""
    return asm_of(HEAD + method("f", ":=" * (size // 2) + "\n"))


@shape("J03")
def long_word(size, _):
    """a line of one word"""
    return asm_of(HEAD + method("f", "a" * size + "\n"))


@shape("J05")
def long_number(size, _):
    """a number of many digits"""
    return asm_of(HEAD + method("f", f"ldc {'1' * size}\n"))


@shape("0")
def leading_zeros(size, _):
    """a number of many zeros, in decimal and in hexadecimal digits"""
    return asm_of(HEAD + method("f", f"ldc {'0' * (size // 2)}7\nldc 0x{'0' * (size // 2)}7\n"))


@shape("A07")
def long_text(size, _):
    """a text of escapes that is too long for a class"""
    return asm_of(HEAD + method("f", 'ldc "' + "\\u0001" * part_count(size, "\\u0001") + '"\n' + BODY))


@shape("P03")
def no_utf8(size, _):
    """a source whose last byte is no UTF-8"""
    return asm_of(("; é語\n" * part_count(size, "; é語\n".encode().decode("latin-1"))).encode() + b"\xff")


@shape()
def random_source(size, random):
    """random ASCII"""
    return asm_of(bytes(9 + b % 118 for b in random.randbytes(size)))


# ---- Methods


@shape("0")
def labels(size, _):
    """labels of one place, none of which is named"""
    return asm_of(HEAD + method("f", until(size, lambda n: f"L{n}:\n") + BODY))


@shape("A02")
def repeated_label(size, _):
    """labels of one place, the last of which is one before"""
    return asm_of(HEAD + method("f", until(size, lambda n: f"L{n}:\n") + "L0:\n" + BODY))


@shape("0")
def prefix_labels(size, _):
    """labels that share a long beginning"""
    return asm_of(HEAD + method("f", until(size, lambda n: f"{PREFIX}{n}:\n") + BODY))


@shape("0")
def jumps(size, _):
    """methods of the most bytes, with a jump from each place to the middle"""
    count = 32_000 // 3
    first = "".join(f"goto M\nL{n}:\n" for n in range(count))
    return methods(size, f"{first}M:\n{''.join(f'goto L{n}' + chr(10) for n in range(count))}")


@shape("A01")
def undefined_label(size, _):
    """jumps to labels of which the last isn't there"""
    made = jumps(size, _)
    return asm_of(made.files["A.j"] + method("z", "goto nowhere\n"))


@shape("A03")
def far_branches(size, _):
    """methods of nops, and a last one whose branch doesn't reach its label"""
    text = HEAD + until(size, lambda n: method(f"m{n}", "nop\n" * 60_000 + BODY))
    return asm_of(text + method("z", "goto L\n" + "nop\n" * 40_000 + "L:\n" + BODY))


@shape("0")
def short_methods(size, _):
    """the most methods that a class has, of names that fill the size"""
    pad = "x" * max(0, size // 60_000 - 60)
    return asm_of(HEAD + "".join(f".method static {n}{pad}()V\nreturn\n.end method\n" for n in range(1, 60_000)))


@shape("A07", "A05")
def too_many_methods(size, _):
    """more methods than a class has"""
    return asm_of(HEAD + until(max(size, 3_000_000), lambda n: f".method static a{n}()V\nreturn\n.end method\n"))


@shape("0")
def catches(size, _):
    """methods of the most catches, over all pairs of some labels"""
    marks = "".join(f"L{n}:\nnop\n" for n in range(257))
    rows = "".join(f".catch all from L{n % 256} to L256 using L{n // 256}\n" for n in range(MOST))
    return methods(size, rows + marks + BODY)


@shape("A07")
def too_many_catches(size, _):
    """more catches than a method has"""
    row = ".catch all from A to B using B\n"
    return asm_of(HEAD + method("f", row * max(MOST + 1, part_count(size, row)) + "A:\nnop\nB:\n" + BODY))


@shape("0")
def dropped_lines(size, _):
    """a method of .line and .var alone, which are dropped"""
    lines = ".line 5\n.var 1 is x I from A to B\n"
    return asm_of(HEAD + method("f", "A:\n" + lines * part_count(size, lines) + "B:\n" + BODY))


@shape("0", "A07")
def repeated_implements(size, _):
    """one interface, named by as many lines as there may be"""
    line = f".implements {'I' * max(1, size // MOST - 13)}\n"
    return asm_of(HEAD + line * MOST)


@shape("0")
def throws(size, _):
    """methods that throw the most classes"""
    return methods(size, "".join(f".throws a/b/X{n}\n" for n in range(20_000)) + BODY)


@shape("J10")
def repeated_limit(size, _):
    """a limit that comes again on the last line"""
    return asm_of(HEAD + method("f", "nop\n" * part_count(size, "nop\n") + ".limit stack 1\n"))


@shape("J10")
def repeated_field(size, _):
    """fields that share a long beginning, the last of which is one before"""
    return asm_of(HEAD + until(size, lambda n: f".field static {PREFIX}{n} I\n") + f".field static {PREFIX}0 I\n")


@shape("0")
def tableswitch_lines(size, _):
    """methods of a tableswitch of many labels"""
    return methods(size, "L:\niconst_0\ntableswitch 0\n" + "L\n" * 16_000 + "default : L\n")


@shape("0")
def lookupswitch_lines(size, _):
    """methods of a lookupswitch of many labels"""
    return methods(size, "L:\niconst_0\nlookupswitch\n" + "".join(f"{n} : L\n" for n in range(8000)) + "default : L\n")


@shape("0")
def string_constants(size, _):
    """strings, as many as a pool has, that share a beginning and fill the size"""
    pad = "x" * max(0, size // 30_000 - 15)
    lines = [f'ldc "{pad}{n}"\npop\n' for n in range(30_000)]
    return asm_of(HEAD + "".join(method(f"m{n}", "".join(lines[n : n + 10_000]) + BODY) for n in (0, 10_000, 20_000)))


@shape("A05")
def full_pool(size, _):
    """more different numbers than a pool has"""
    parts = ["".join(f"ldc {n + part}\npop\n" for n in range(10_000)) for part in range(40_000, 110_000, 10_000)]
    pad = "\n" * (size // len(parts))
    return asm_of(HEAD + "".join(method(f"m{n}", part + BODY + pad) for n, part in enumerate(parts)))


# ---- Specifications


def checked(spec, trace, *words):
    """Returns the check of a trace against a specification."""
    return Input({"spec": spec, "trace": trace}, ["check", "--spec", "spec", *words, "trace"])


SMALL = "enter 1 C.m.()V\nwr 1 C.x.I\nexit 1 C.m.()V\n"


@shape("0")
def spec_of_all(size, _):
    """lines that all speak of all methods"""
    line = "atomic *\n"
    return checked(line * part_count(size, line), SMALL)


@shape("0")
def spec_of_methods(size, _):
    """lines of methods of one class"""
    return checked(until(size, lambda n: f"atomic C.m{n}.()V\n"), SMALL)


@shape("0")
def spec_of_classes(size, _):
    """lines of all methods of classes that share a long beginning"""
    return checked(until(size, lambda n: f"plain {PREFIX}{n}.*\n"), SMALL)


@shape("0")
def spec_of_comments(size, _):
    """empty lines and comments"""
    return checked("#\n\n" * part_count(size, "#\n\n"), SMALL)


@shape("E01")
def spec_fault(size, _):
    """lines of which the last is faulty"""
    line = "plain *\n"
    return checked(line * part_count(size, line) + "atomic\n", SMALL)


@shape("E01")
def spec_line(size, _):
    """one line of many dots"""
    return checked("atomic " + "a." * (size // 2) + "\n", SMALL)


@shape("0")
def spec_and_methods(size, _):
    """lines of methods, each of which is entered"""
    spec = until(size // 3, lambda n: f"atomic C.m{n}.()V\n")
    enter = "".join(f"enter 1 C.m{n}.()V\nexit 1 C.m{n}.()V\n" for n in range(spec.count("\n")))
    return checked(spec, enter)


# ---- Trials


def example(random, pattern):
    """Returns the bytes of a file of the examples."""
    return random.choice(sorted(EXAMPLES.rglob(pattern))).read_bytes()


@trial
def flipped_source(random):
    """sources of the examples with bytes changed"""
    return asm_of(flipped(example(random, "*.j"), random, 2, 128))


@trial
def moved_lines(random):
    """sources of the examples, a line of which was moved, left out or repeated"""
    lines = example(random, "*.j").splitlines(True)
    moved = lines.pop(random.randrange(len(lines)))
    for _ in range(random.randrange(3)):
        lines.insert(random.randrange(len(lines)), moved)
    return asm_of(b"".join(lines))


@trial
def flipped_trace(random):
    """a short trace with bytes changed"""
    trace = SMALL * 5 + "rd 1 7.C.x.I\nwr 2 7[3]\nacq 1 9\nrel 1 9\nfork 1 2\njoin 1 2\n"
    return checked("atomic *\n", flipped(trace.encode(), random, 2, 128))


@trial
def flipped_spec(random):
    """a short specification with bytes changed"""
    return checked(flipped(b"atomic C.m.()V\nplain *\natomic C.*\n#\n\nplain C.m\n", random, 2, 128), SMALL)
