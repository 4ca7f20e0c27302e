"""Shapes for the linker, for bench/hostile.py: hierarchies, references, members and names of many class files."""
from class_files import GIVE_7, Pool, class_file, method, u2
from hostile_classes import MOST, MOST_FILES, OBJECT, eval_of, filling, list_of, long_method, member, reference
from hostile_shapes import shape

INTERFACE = 0x0600
# What begins the names of things that differ only after it.
PREFIX = "p" * 1000
# The fingerprint of const_pool::firsts: FNV-1a of 64 bits over units of 16 bits.
FACTOR, BASIS = 0x100000001B3, 0xCBF29CE484222325
DIFFERENCES = [131, -138, -113, 44, -58, 28, 54, -16]


def below(number, above):
    """Returns an interface of a number that is below others."""
    return class_file(Pool(), f"I{number}", [], [], interfaces=[f"I{n}" for n in above], flags=INTERFACE)


@shape("0")
def interface_chain(size, _):
    """a chain of interfaces"""
    return filling(size // 2, lambda number: below(number, [number - 1] if number else []))


@shape("0")
def interface_diamonds(size, _):
    """levels of two interfaces, each below both of the level before"""
    return filling(size // 2, lambda n: below(n, [n - n % 2 - 2, n - n % 2 - 1] if n > 1 else []))


@shape("0")
def interface_mesh(size, _):
    """interfaces each below all before it"""
    return filling(size, lambda number: below(number, range(number)))


@shape("0")
def wide_classes(size, _):
    """classes below the same thousand interfaces"""
    return filling(size, lambda n: below(n, range(1000) if n > 1000 else []))


def circle(count, make):
    """Returns a run beside classes in a circle, each made of a pool, its own name and that of the next."""
    return eval_of([make(f"C{n}", f"C{(n + 1) % count}") for n in range(count)])


@shape("K03")
def super_circle(size, _):
    """a circle of superclasses"""
    return circle(min(MOST_FILES, size // 200), lambda name, above: class_file(Pool(), name, [], [], above=above))


@shape("K03")
def late_circle(size, _):
    """a chain of superclasses that leads to a circle of two"""
    count = min(MOST_FILES, size // 200)
    above = [*range(1, count), count - 2]
    return eval_of([class_file(Pool(), f"C{n}", [], [], above=f"C{above[n]}") for n in range(count)])


@shape("0")
def naming_circle(size, _):
    """classes whose fields, constants and calls name the next class in a circle"""

    def make(name, other):
        pool = Pool()
        body = b"\xb8" + u2(reference(pool, 10, other, "f", "()I")) + b"\xac"
        return class_file(pool, name, [method(pool, "f", "()I", 1, 0, body)], [], [member(pool, 0, "x", f"L{other};")])

    return circle(min(MOST_FILES, size // 400), make)


@shape("0")
def one_reference(size, _):
    """instructions that all name one static field, in methods of many classes"""

    def make(number):
        pool = Pool()
        field = reference(pool, 9, "C0", "x", "I")
        body = long_method(pool, "f", b"\xb2" + u2(field) + b"\x57")
        return class_file(pool, f"C{number}", [body], [], [member(pool, 8, "x", "I")])

    return filling(size, make)


def uses(size, hierarchy, tag, opcode, share):
    """Returns a run beside a hierarchy and classes that name members of its lowest class, each once, and none is there."""
    files = hierarchy(int(size * share))
    lowest, length = f"{'I' if tag == 11 else 'C'}{len(files) - 1}", 0
    while length < size * (1 - share):
        pool = Pool()
        kinds = "I" if tag == 9 else "()V"
        named = [reference(pool, tag, lowest, f"n{len(files)}_{n}", kinds) for n in range(200)]
        body = b"".join(opcode[:1] + u2(number) + opcode[1:] for number in named) + GIVE_7
        files.append(class_file(pool, f"U{len(files)}", [method(pool, "f", "()I", 9, 9, body)], []))
        length += len(files[-1])
    return eval_of(files)


def interfaces_in_chain(size):
    return [below(n, [n - 1] if n else []) for n in range(min(MOST_FILES, max(1, size // 100)))]


def classes_in_chain(size):
    count = min(MOST_FILES, max(1, size // 100))
    return [class_file(Pool(), f"C{n}", [], [], above=f"C{n - 1}" if n else OBJECT) for n in range(count)]


@shape("0")
def missing_fields(size, _):
    """a chain of superclasses, and missing fields of its lowest, each named once"""
    return uses(size // 16, classes_in_chain, 9, b"\xb2", 0.5)


@shape("0")
def missing_methods(size, _):
    """a chain of superclasses, and missing methods of its lowest, each named once"""
    return uses(size // 64, classes_in_chain, 10, b"\xb8", 0.5)


@shape("0")
def missing_in_interfaces(size, _):
    """a chain of interfaces, and missing methods of its lowest, each named once"""
    return uses(size // 16, interfaces_in_chain, 11, b"\xb9\1\0", 0.5)


def chain_of(size, make):
    """Returns a run beside a chain of superclasses, each with the fields and methods that are made of a pool and a number."""

    def one(number):
        pool = Pool()
        fields, methods = make(pool, number)
        return class_file(pool, f"C{number}", methods, [], fields, above=f"C{number - 1}" if number else OBJECT)

    return filling(size, one)


@shape("0")
def field_chain(size, _):
    """a chain of superclasses, each with a field"""
    return chain_of(size // 16, lambda pool, number: ([member(pool, 1, f"x{number}", "I")], []))


@shape("0")
def method_chain(size, _):
    """a chain of superclasses, each with a method"""
    return chain_of(size // 16, lambda pool, number: ([], [virtual(pool, f"m{number}")]))


def virtual(pool, name):
    """Returns a public method that isn't static."""
    return u2(1) + method(pool, name, "()I", 1, 1, GIVE_7)[2:]


@shape("0")
def overriding_chain(size, _):
    """a chain of superclasses that all have the same methods"""
    return chain_of(size // 4, lambda pool, _: ([], [virtual(pool, f"m{n}") for n in range(20)]))


def class_of_fields(size, flags):
    """Returns a run beside one class of fields, as many as fill a sixteenth of a size."""
    pool = Pool()
    fields = [member(pool, flags, f"{n:05}", "I") for n in range(min(MOST - 100, max(1, size // 16 // 16)))]
    return eval_of([class_file(pool, "C", [], [], fields)])


@shape("0")
def static_fields(size, _):
    """a class of many static fields"""
    return class_of_fields(size, 8)


@shape("0")
def instance_fields(size, _):
    """a class of many instance fields"""
    return class_of_fields(size, 0)


@shape("0")
def static_field_each(size, _):
    """classes of one static field each"""

    def make(number):
        pool = Pool()
        return class_file(pool, f"C{number}", [], [], [member(pool, 8, "x", "I")])

    return filling(size // 12, make)


@shape("0")
def many_methods(size, _):
    """classes of the most methods"""

    def make(number):
        pool = Pool()
        return class_file(pool, f"C{number}", [method(pool, f"{n}", "()I", 1, 0, GIVE_7) for n in range(MOST - 100)], [])

    return filling(size, make)


@shape("0")
def many_classes(size, _):
    """as many class files as a command takes"""
    return filling(size // 2, lambda number: class_file(Pool(), f"C{number}", [], []))


@shape("0")
def long_class_names(size, _):
    """class files of names of the most bytes, each naming the one before"""

    def name(number):
        return f"{number:06}" + "n" * (MOST - 6) if number >= 0 else OBJECT

    return filling(size, lambda number: class_file(Pool(), name(number), [], [], above=name(number - 1)))


@shape("K02")
def missing_super(size, _):
    """class files, the last of which has a superclass that isn't there"""
    made = many_classes(size // 4, _)
    made.files["Z.class"] = class_file(Pool(), "Z", [], [], above="Missing")
    made.words.append("Z.class")
    return made


# ---- Names


@shape("0")
def prefix_classes(size, _):
    """class files whose names share a long beginning"""
    return filling(size, lambda number: class_file(Pool(), f"{PREFIX}{number:06}", [], []))


@shape("0")
def prefix_members(size, _):
    """classes of fields whose names share a long beginning"""

    def make(number):
        pool = Pool()
        fields = [member(pool, 0, f"{PREFIX}{n:05}", "I") for n in range(1000)]
        return class_file(pool, f"C{number}", [], [], fields)

    return filling(size, make)


@shape("C17")
def repeated_member(size, _):
    """a class of members, the last two of which are one"""
    pool = Pool()
    pad = "x" * (size // 60_000)
    fields = [member(pool, 8, f"{n}{pad}", "I") for n in range(60_000)]
    return list_of(class_file(pool, "A", [], [], fields + fields[-1:]))


def two_spellings(state, random):
    """Returns eight units in two spellings, and the state that both end in. A unit replaces the lowest 16 bits of a state;
    DIFFERENCES, a short vector of the lattice of those that cancel out, are what the second one adds to them."""
    one, other, texts = state, state, ["", ""]
    for difference in DIFFERENCES:
        shift = difference + other % (1 << 16) - one % (1 << 16)
        while True:
            low = random.randrange(max(0, -shift), min(1 << 16, (1 << 16) - shift)) if abs(shift) < 1 << 16 else None
            if low is None:
                return None
            units = chr(one % (1 << 16) ^ low), chr(other % (1 << 16) ^ low + shift)
            if not any(unit in "\0.;[/<>" or "\ud800" <= unit < "\ue000" for unit in units):
                break
        texts = [text + unit for text, unit in zip(texts, units)]
        one, other = ((one ^ ord(units[0])) * FACTOR % (1 << 64), (other ^ ord(units[1])) * FACTOR % (1 << 64))
    assert one == other
    return (*texts, one)


def same_fingerprint(random, bits):
    """Returns two to the bits names of one fingerprint: blocks in two spellings each, in all ways."""
    state, names = BASIS, [""]
    for _ in range(bits):
        one, other, state = next(filter(None, (two_spellings(state, random) for _ in iter(int, 1))))
        names = [name + half for name in names for half in (one, other)]
    return names


@shape("0")
def fingerprint_members(size, random):
    """classes of fields whose names have one fingerprint"""
    names = same_fingerprint(random, 11)

    def make(number):
        pool = Pool()
        return class_file(pool, f"C{number}", [], [], [member(pool, 0, name, "I") for name in names])

    return filling(size, make)
