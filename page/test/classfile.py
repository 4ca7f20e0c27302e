"""Reads what class files and sources in Jasmin say of lines, and of the names of local variables."""
import re
import struct

# Lengths of instructions by opcode, where not 1. tableswitch (170), lookupswitch (171) and wide (196) have their own.
LENGTHS = [1] * 202
for _ops, _length in (((16, 18, 188), 2), (range(21, 26), 2), (range(54, 59), 2), ((169,), 2), ((17, 19, 20, 132), 3), (range(153, 169), 3),
                      (range(178, 185), 3), ((187, 189, 192, 193, 198, 199), 3), ((197,), 4), ((185, 200, 201), 5)):
    for _op in _ops:
        LENGTHS[_op] = _length


def offsets(code):
    """Returns the byte offset of each instruction."""
    at, out = 0, []
    while at < len(code):
        out.append(at)
        op = code[at]
        if op in (170, 171):
            p = (at + 4) & ~3
            if op == 170:
                low, high = struct.unpack(">ii", code[p + 4:p + 12])
                at = p + 12 + 4 * (high - low + 1)
            else:
                at = p + 8 + 8 * struct.unpack(">i", code[p + 4:p + 8])[0]
        elif op == 196:
            at += 6 if code[at + 1] == 132 else 4
        else:
            at += LENGTHS[op]
    return out


def escaped(name):
    """Returns a name as jvmx writes it."""
    units = name.encode("utf-16-be", "surrogatepass")
    codes = [units[i] * 256 + units[i + 1] for i in range(0, len(units), 2)]
    return "".join(chr(c) if 33 <= c <= 126 and c != 92 else "\\u%04x" % c for c in codes)


SIZES = {3: 5, 4: 5, 5: 9, 6: 9, 7: 3, 8: 3, 9: 5, 10: 5, 11: 5, 12: 5}        # of the pool's entries, by tag


class Bytes:
    """Reads a class file from its pool on."""

    def __init__(self, data):
        self.data, self.at, self.pool = data, 8, [None]
        count = self.number(2)
        while len(self.pool) < count:
            tag, start = data[self.at], self.at
            if tag == 1:
                size = 3 + struct.unpack(">H", data[start + 1:start + 3])[0]
                self.pool.append(data[start + 3:start + size].decode("utf-8", "replace"))
            else:
                size = SIZES[tag]
                self.pool.append(struct.unpack(">H", data[start + 1:start + 3])[0] if tag in (7, 8) else None)
                self.pool += [None] if tag in (5, 6) else []
            self.at += size

    def number(self, size):
        self.at += size
        return int.from_bytes(self.data[self.at - size:self.at], "big")

    def text(self):
        return self.pool[self.number(2)]

    def attributes(self):
        """Yields the name of each attribute, and continues after it."""
        for _ in range(self.number(2)):
            name, size = self.text(), self.number(4)
            after = self.at + size
            yield name
            self.at = after


def code_of(f):
    """Returns the offsets of the instructions, the line of each that begins one, and the variables."""
    lines, variables = {}, []
    f.number(4)
    n = f.number(4)
    where = offsets(f.data[f.at:f.at + n])
    f.at += n
    handlers = f.number(2)
    f.at += 8 * handlers
    for inner in f.attributes():
        if inner == "LineNumberTable":
            lines.update((f.number(2), f.number(2)) for _ in range(f.number(2)))
        elif inner == "LocalVariableTable":
            variables += [(f.number(2), f.number(2), f.text(), f.text(), f.number(2)) for _ in range(f.number(2))]
    return where, lines, variables


def tables_of(where, lines, variables):
    """Returns the line of each instruction, and the variables as the data has them."""
    by, line = [], 0
    for pc in where:
        line = lines.get(pc, line)
        by.append(line)
    index = {pc: i for i, pc in enumerate(where)}
    names = [[slot, index.get(a, 0), index.get(a + n, len(where)), escaped(name), d if len(d) == 1 else "L"] for a, n, name, d, slot in variables]
    return by, names


def debug_tables(data):
    """Returns the class's name, its source file, and by name and descriptor: lines by instruction, variables, flags."""
    f, methods, source = Bytes(data), {}, None
    f.number(2)
    name = escaped(f.pool[f.text()])
    f.number(2)
    interfaces = f.number(2)
    f.at += 2 * interfaces
    for part in ("field", "method"):
        for _ in range(f.number(2)):
            flags, key, code = f.number(2), escaped(f.text()) + "." + escaped(f.text()), None
            for attribute in f.attributes():
                if attribute == "Code" and part == "method":
                    code = code_of(f)
            if code:
                methods[key] = tables_of(*code) + (flags,)
    for attribute in f.attributes():
        if attribute == "SourceFile":
            source = f.text()
    return name, source, methods


def jasmin_lines(text):
    """Returns the lines of the instructions of each method of a source in Jasmin, in its order."""
    methods, body, switch = [], None, False
    for number, line in enumerate(text.split("\n"), 1):
        s = re.sub(r"(^|\s);.*", "", line).strip()
        if s.startswith(".method"):
            body = []
            methods.append(body)
        elif s.startswith(".end method"):
            body, switch = None, False
        elif body is not None:
            m = re.match(r"^([^\s:\"]+)\s*:\s*(.*)$", s)
            if switch:
                if s.startswith("default"):
                    switch = False
                continue
            if m:
                s = m.group(2)
            if s and not s.startswith("."):
                body.append(number)
                switch = s.split()[0] in ("tableswitch", "lookupswitch")
    return methods
