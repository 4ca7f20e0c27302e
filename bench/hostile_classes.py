"""Shapes for the reader of class files, for bench/hostile.py. Most fill as many class files as a size takes, and have all of
them linked."""
from pathlib import Path

from class_files import GIVE_7, Pool, class_file, counted, method, one_large_attribute, u2, u4
from hostile_shapes import Input, add, flipped, part_count, shape, trial

EXAMPLES = Path(__file__).resolve().parent.parent / "examples"
MOST = 65_535
# Files of one command: Linux takes 2 MiB of words.
MOST_FILES = 60_000
OBJECT = "java/lang/Object"
ABSTRACT = 0x0401


def entry():
    """Returns the class E, with the method f()I that returns 7."""
    pool = Pool()
    return class_file(pool, "E", [method(pool, "f", "()I", 1, 0, GIVE_7)], [])


def eval_of(files):
    """Returns a run of E.f()I beside these class files."""
    every = {f"{number}.class": data for number, data in enumerate(files)} | {"E.class": entry()}
    return Input(every, ["eval", "--entry", "E.f.()I", *every])


def list_of(data):
    """Returns a listing of a class file."""
    return Input({"A.class": data}, ["list", "A.class"])


def filling(size, make):
    """Returns a run beside class files by their numbers, until they have a size."""
    files, length = [], 0
    while length < size and len(files) < MOST_FILES:
        files.append(make(len(files)))
        length += len(files[-1])
    return eval_of(files)


def member(pool, flags, name, descriptor, attributes=()):
    """Returns a field, or a method without code."""
    return u2(flags) + u2(pool.text(name)) + u2(pool.text(descriptor)) + counted(attributes)


def reference(pool, tag, owner, name, descriptor):
    """Returns the number of a reference to a member."""
    kind = pool.put(b"\x0c" + u2(pool.text(name)) + u2(pool.text(descriptor)))
    return pool.put(bytes([tag]) + u2(pool.name(owner)) + u2(kind))


def long_method(pool, name, body):
    """Returns a method of as many repetitions of a piece of code as it may have."""
    return method(pool, name, "()I", 4, 4, body * ((MOST - len(GIVE_7)) // len(body)) + GIVE_7)


# ---- Bytes


@shape()
def random_bytes(size, random):
    """random bytes after a right magic, a version and the largest pool"""
    return list_of(u4(0xCAFEBABE) + u4(49) + u2(MOST) + random.randbytes(size))


@shape("C01")
def random_texts(size, random):
    """texts of random ASCII of random lengths after a right magic, until the file ends"""
    data = bytearray(u4(0xCAFEBABE) + u4(49) + u2(MOST))
    for _ in range(MOST - 2):
        data += b"\1" + u2(size // MOST) + bytes(65 + b % 26 for b in random.randbytes(size // MOST))
    return list_of(bytes(data) + b"\1")


@shape()
def flipped_code(size, random):
    """a class of long methods, a byte of whose last method was changed"""
    pool = Pool()
    methods = [long_method(pool, f"m{n}", b"\x15\x01\x11\x01\x00\x60\x36\x02") for n in range(part_count(size, bytes(MOST)))]
    data = class_file(pool, "A", methods, [])
    return list_of(data[: -MOST // 2] + flipped(data[-MOST // 2 :], random, 1))


@shape("C01")
def lying_length(size, _):
    """a class whose last attribute has a length that reaches just beyond its end"""
    return list_of(one_large_attribute(size + 64)[:-1])


@shape("0")
def long_attribute(size, _):
    """one attribute of nearly all bytes"""
    return list_of(one_large_attribute(size + 64))


@shape("0")
def many_attributes(size, _):
    """methods whose code has the most attributes, each empty"""

    def make(number):
        pool = Pool()
        unread = u2(pool.text("X")) + u4(0)
        nested = method(pool, "f", "()I", 1, 0, GIVE_7, attributes=[unread] * MOST)
        return class_file(pool, f"C{number}", [nested], [unread] * MOST)

    return filling(size, make)


# ---- Pools


def filled(name, part, pads=0):
    """Returns a class whose pool is filled with entries by their numbers, after an entry of each kind that they may name."""
    pool = Pool()
    pool.name(OBJECT), pool.text("name"), pool.text("I")
    pool.put(b"\x0c" + u2(3) + u2(4)), pool.put(b"\x0c" + u2(3) + u2(pool.text("()V")))
    pool.name(name)
    while len(pool.entries) < MOST - 16:
        pool.entries += [part(len(pool.entries))] + [b""] * pads
    return class_file(pool, name, [], [])


KINDS = {
    "utf8": lambda n: b"\x01\x00\x06" + b"%06d" % n,
    "integer": lambda n: b"\x03" + u4(n),
    "float": lambda n: b"\x04" + u4(n),
    "long": lambda n: b"\x05" + u4(0) + u4(n),
    "double": lambda n: b"\x06" + u4(0) + u4(n),
    "class": lambda n: b"\x07" + u2(1),
    "string": lambda n: b"\x08" + u2(1),
    "field": lambda n: b"\x09" + u2(2) + u2(5),
    "method": lambda n: b"\x0a" + u2(2) + u2(7),
    "interface_method": lambda n: b"\x0b" + u2(2) + u2(7),
    "name_and_type": lambda n: b"\x0c" + u2(3) + u2(4),
}


def pools(kind):
    """Adds the shape of pools of a kind."""

    def make(size, _):
        pads = kind in ("long", "double")
        return filling(size, lambda number: filled(f"C{number}", KINDS[kind], pads))

    make.__doc__ = f"pools of the most entries, all of kind {kind}"
    add(f"pool_{kind}", make, ("0",))


for each in KINDS:
    pools(each)


@shape("0")
def long_texts(size, random):
    """texts of the most bytes, in units of one, two and three bytes"""
    pool = Pool()
    for number in range(part_count(size, bytes(MOST))):
        unit = random.choice([b"a", "é".encode(), "語".encode()])
        pool.entries.append(b"\1" + u2(MOST - MOST % len(unit)) + unit * (MOST // len(unit)))
    return list_of(class_file(pool, "A", [], []))


@shape("0")
def long_strings(size, _):
    """strings of the most bytes, each the operand of an ldc_w, listed as escapes"""
    pool = Pool()
    body = b"".join(
        b"\x13" + u2(pool.put(b"\x08" + u2(pool.text(f"{number:06}" + "\1" * (MOST - 6))))) + b"\x57"
        for number in range(part_count(size, bytes(MOST)))
    )
    return list_of(class_file(pool, "A", [method(pool, "f", "()I", 1, 0, body + GIVE_7)], []))


def shared(part):
    """Returns a class whose pool names one text of the most bytes in each entry."""
    pool = Pool()
    pool.text("n" * MOST), pool.text("(L" + "n" * (MOST - 5) + ";)V")
    pool.name(OBJECT)
    while len(pool.entries) < MOST - 16:
        pool.entries.append(part)
    return pool


@shape("0")
def shared_class_names(size, _):
    """pools of Class entries that all name one text of the most bytes"""
    return filling(size, lambda number: class_file(shared(b"\x07" + u2(1)), f"C{number}", [], []))


@shape("0")
def shared_types(size, _):
    """pools of NameAndType entries that all name one long name and one long descriptor"""
    return filling(size, lambda number: class_file(shared(b"\x0c" + u2(1) + u2(2)), f"C{number}", [], []))


@shape("0")
def shared_descriptors(size, _):
    """classes of the most methods, all of one descriptor of the most bytes"""

    def make(number):
        pool = Pool()
        methods = [member(pool, ABSTRACT, f"m{n}", "(L" + "n" * (MOST - 5) + ";)V") for n in range(MOST - 100)]
        return class_file(pool, f"C{number}", methods, [], flags=0x0421)

    return filling(size, make)


@shape("0")
def shared_invokes(size, _):
    """methods of invokeinterface alone, all of one method with a descriptor of the most bytes"""

    def make(number):
        pool = Pool()
        target = reference(pool, 11, "E", "m", "(L" + "n" * (MOST - 5) + ";)I")
        return class_file(pool, f"C{number}", [long_method(pool, "f", b"\xb9" + u2(target) + b"\2\0")], [])

    return filling(size // 4, make)


@shape("0")
def dimensions(size, _):
    """fields of arrays of 255 dimensions"""

    def make(number):
        pool = Pool()
        fields = [member(pool, 0, f"f{n}", "[" * (255 - n % 9) + "I") for n in range(500)]
        return class_file(pool, f"C{number}", [], [], fields)

    return filling(size, make)


@shape("0")
def parameters(size, _):
    """methods of 255 parameters, each of a descriptor of its own"""

    def make(number):
        pool = Pool()
        methods = [member(pool, 0x0409, f"m{n}", "(" + f"[[LC{n};" * 255 + ")V") for n in range(100)]
        return class_file(pool, f"C{number}", methods, [], flags=0x0421)

    return filling(size, make)


# ---- Code


def codes(size, make_body, handlers=lambda pool: ()):
    """Returns a run beside classes of one method each, of a body by its pool."""

    def make(number):
        pool = Pool()
        return class_file(pool, f"C{number}", [method(pool, "f", "()I", 4, 4, make_body(pool), handlers(pool))], [])

    return filling(size, make)


@shape("0")
def nops(size, _):
    """methods of the most bytes, each an instruction"""
    return codes(size, lambda _: bytes(MOST - 3) + GIVE_7)


@shape("0")
def branches(size, _):
    """methods of gotos alone, each to its mirror image"""
    count = (MOST - 3) // 5
    body = b"".join(b"\xc8" + u4(5 * (count - 1 - 2 * n)) for n in range(count)) + GIVE_7
    return codes(size, lambda _: body)


@shape("0")
def tableswitches(size, _):
    """methods of one tableswitch of the most cases"""
    count = (MOST - 20) // 4
    end = 16 + 4 * count
    body = b"\x03\xaa\0\0" + u4(end - 1) + u4(0) + u4(count - 1) + u4(end - 1) * count + GIVE_7
    return codes(size, lambda _: body)


@shape("0")
def small_switches(size, _):
    """methods of tableswitches of one case, each with other pads"""
    body = b"\0\xaa\0\0" + u4(19) + u4(5) + u4(5) + u4(19)
    return codes(size, lambda _: body * 3000 + GIVE_7)


@shape("0")
def lookupswitches(size, _):
    """methods of one lookupswitch of the most cases"""
    count = (MOST - 20) // 8
    end = 12 + 8 * count
    body = b"\x03\xab\0\0" + u4(end - 1) + u4(count) + b"".join(u4(n) + u4(end - 1) for n in range(count)) + GIVE_7
    return codes(size, lambda _: body)


@shape("C13")
def late_target(size, _):
    """a method of ifs, the last of which leads into an instruction, in the last of many classes"""
    last = class_file(pool := Pool(), "Z", [method(pool, "f", "()I", 4, 4, b"\x03\x99\0\2\0" * 13_000 + GIVE_7)], [])
    made = nops(size, _)
    made.files["Z.class"] = last
    made.words.append("Z.class")
    return made


@shape("0")
def handlers(size, _):
    """exception tables of the most rows, each of a class of its own"""

    def rows(pool):
        caught = [pool.name(f"X{n}") for n in range(30_000)]
        return [u2(n % 30_000) + u2(40_000) + u2(n % 40_000) + u2(caught[n % len(caught)]) for n in range(MOST)]

    return codes(size, lambda _: bytes(MOST - 3) + GIVE_7, rows)


# ---- Trials


def an_example(random):
    """Returns the bytes of a class file of the examples."""
    return random.choice(sorted(EXAMPLES.rglob("*.class"))).read_bytes()


@trial
def flipped_listing(random):
    """class files of the examples with bytes changed, listed"""
    return list_of(flipped(an_example(random), random))


@trial
def flipped_run(random):
    """class files of the examples with bytes changed, linked and run"""
    files = {"A.class": flipped(an_example(random), random), "E.class": entry()}
    return Input(files, ["eval", "--entry", "E.f.()I", *files])


@trial
def cut_listing(random):
    """class files of the examples, cut and joined to another's end"""
    one, other = an_example(random), an_example(random)
    return list_of(one[: random.randrange(len(one))] + other[random.randrange(len(other)) :])
