#!/usr/bin/env python3
"""Makes class files of unusual size in the folder that is named, each with a static method f()I (in Loop: f(I)I).

    bench/class_files.py FOLDER
"""
import struct
import sys
from pathlib import Path


def u2(n):
    return struct.pack(">H", n & 0xFFFF)


def u4(n):
    return struct.pack(">I", n & 0xFFFFFFFF)


class Pool:
    """A constant pool in which equal entries share a number."""

    def __init__(self):
        self.entries, self.numbers = [], {}

    def put(self, entry):
        if entry not in self.numbers:
            self.entries.append(entry)
            self.numbers[entry] = len(self.entries)
        return self.numbers[entry]

    def text(self, text):
        raw = text.encode()
        return self.put(b"\x01" + u2(len(raw)) + raw)

    def name(self, text):
        return self.put(b"\x07" + u2(self.text(text)))

    def spelled(self):
        return u2(len(self.entries) + 1) + b"".join(self.entries)


def counted(parts):
    return u2(len(parts)) + b"".join(parts)


def code(pool, stack, local, instructions, handlers=(), attributes=()):
    content = u2(stack) + u2(local) + u4(len(instructions)) + instructions + counted(handlers) + counted(attributes)
    return u2(pool.text("Code")) + u4(len(content)) + content


def method(pool, name, descriptor, stack, local, instructions, handlers=(), attributes=()):
    head = u2(0x0009) + u2(pool.text(name)) + u2(pool.text(descriptor)) + u2(1)
    return head + code(pool, stack, local, instructions, handlers, attributes)


def class_file(pool, name, methods, attributes, fields=(), interfaces=(), above="java/lang/Object", flags=0x0021):
    this, above = pool.name(name), pool.name(above)
    named = [u2(pool.name(interface)) for interface in interfaces]
    return (
        u4(0xCAFEBABE) + u2(0) + u2(49) + pool.spelled() + u2(flags) + u2(this) + u2(above) + counted(named)
        + counted(fields) + counted(methods) + counted(attributes)
    )


GIVE_7 = b"\x10\x07\xac"  # bipush 7, ireturn
ORDINARY = b"\x15\x05\x11\x01\x00\x60\x36\x05"  # iload 5, sipush 256, iadd, istore 5: two bytes an instruction


def one_large_attribute(size):
    pool = Pool()
    f = method(pool, "f", "()I", 1, 0, GIVE_7)
    head = len(class_file(pool, "Attribute", [f], [u2(pool.text("Large")) + u4(0)]))
    large = size - head - 64
    return class_file(pool, "Attribute", [f], [u2(pool.text("Large")) + u4(large) + bytes(large)])


def many_methods(name, count, length, pattern):
    # Each method but f repeats a pattern of instructions.
    pool = Pool()
    body = pattern * ((length - len(GIVE_7)) // len(pattern)) + GIVE_7
    methods = [method(pool, "f", "()I", 1, 0, GIVE_7)]
    methods += [method(pool, f"m{n}", "()I", 2, 6, body) for n in range(count - 1)]
    return class_file(pool, name, methods, [])


def long_names(count, length):
    # Names that differ in their last five letters alone, each under a number of its own.
    pool = Pool()
    methods = [method(pool, "f", "()I", 1, 0, GIVE_7)]
    methods += [method(pool, "m" * length + f"{n:05}", "()I", 1, 0, GIVE_7) for n in range(count - 1)]
    return class_file(pool, "LongNames", methods, [])


def one_long_descriptor(count, length):
    # All methods but f share a descriptor, of one parameter whose class has a long name.
    pool = Pool()
    long = "(L" + "x" * length + ";)I"
    methods = [method(pool, "f", "()I", 1, 0, GIVE_7)]
    methods += [method(pool, f"m{n}", long, 1, 1, GIVE_7) for n in range(count - 1)]
    return class_file(pool, "LongDescriptor", methods, [])


def many_invokes(count, each, length):
    # Each invokeinterface of a method names one method, whose descriptor has a class of a long name.
    pool = Pool()
    kind = u2(pool.text("call")) + u2(pool.text("(L" + "x" * length + ";)I"))
    target = pool.put(b"\x0b" + u2(pool.name("Called")) + u2(pool.put(b"\x0c" + kind)))
    body = (b"\xb9" + u2(target) + b"\x02\x00") * each + GIVE_7
    methods = [method(pool, "f", "()I", 1, 0, GIVE_7)]
    methods += [method(pool, f"m{n}", "()I", 2, 0, body) for n in range(count - 1)]
    return class_file(pool, "Invokes", methods, [])


def many_branches(count):
    # Each goto leads to the next instruction; then nops up to 65,535 bytes, and the return.
    pool = Pool()
    body = b"\xa7\x00\x03" * count
    body += b"\x00" * (65535 - len(body) - len(GIVE_7)) + GIVE_7
    return class_file(pool, "Branches", [method(pool, "f", "()I", 1, 0, body)], [])


def large_switch(pairs):
    # iconst_0, lookupswitch at byte 1 with 2 pads; all pairs lead to the return after it.
    pool = Pool()
    after = 3 + 8 + 8 * pairs
    body = b"\x03\xab\x00\x00" + u4(after) + u4(pairs)
    body += b"".join(u4(n) + u4(after) for n in range(pairs)) + GIVE_7
    return class_file(pool, "Switch", [method(pool, "f", "()I", 1, 0, body)], [])


def loop():
    # f(n): for (i = 0; i < n; i++) { s = s + i ^ n }, eleven instructions a round; gives s.
    pool = Pool()
    body = bytes([0x03, 0x3C, 0x03, 0x3D])  # i = 0, s = 0
    body += bytes([0x1B, 0x1A, 0xA2, 0x00, 0x10])  # iload_1 iload_0 if_icmpge +16
    body += bytes([0x1C, 0x1B, 0x60, 0x1A, 0x82, 0x3D])  # s = s + i ^ n
    body += bytes([0x84, 0x01, 0x01])  # i++
    body += bytes([0xA7, 0xFF, 0xF2])  # goto -14
    body += bytes([0x00, 0x1C, 0xAC])  # nop iload_2 ireturn
    return class_file(pool, "Loop", [method(pool, "f", "(I)I", 2, 3, body)], [])


FILES = {
    "Attribute": lambda: one_large_attribute(67108864),
    "Nops": lambda: many_methods("Nops", 2000, 30000, b"\x00"),
    "Code": lambda: many_methods("Code", 2000, 30000, ORDINARY),
    "Members": lambda: many_methods("Members", 20000, 3, b"\x00"),
    "LongNames": lambda: long_names(64000, 1000),
    "LongDescriptor": lambda: one_long_descriptor(20000, 10000),
    "Invokes": lambda: many_invokes(20, 13000, 60000),
    "Branches": lambda: many_branches(20000),
    "Switch": lambda: large_switch(8000),
    "Loop": loop,
}


def main():
    folder = Path(sys.argv[1])
    folder.mkdir(parents=True, exist_ok=True)
    for name, make in FILES.items():
        (folder / f"{name}.class").write_bytes(make())


if __name__ == "__main__":
    main()
