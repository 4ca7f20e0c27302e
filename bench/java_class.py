"""Reads class files: names, members, instructions, handlers and what they name. It trusts them to be well formed."""
import struct
from pathlib import Path

OPCODES = """nop aconst_null iconst_m1 iconst_0 iconst_1 iconst_2 iconst_3 iconst_4 iconst_5 lconst_0 lconst_1 fconst_0
fconst_1 fconst_2 dconst_0 dconst_1 bipush sipush ldc ldc_w ldc2_w iload lload fload dload aload
iload_0 iload_1 iload_2 iload_3 lload_0 lload_1 lload_2 lload_3 fload_0 fload_1 fload_2 fload_3
dload_0 dload_1 dload_2 dload_3 aload_0 aload_1 aload_2 aload_3
iaload laload faload daload aaload baload caload saload istore lstore fstore dstore astore
istore_0 istore_1 istore_2 istore_3 lstore_0 lstore_1 lstore_2 lstore_3 fstore_0 fstore_1 fstore_2 fstore_3
dstore_0 dstore_1 dstore_2 dstore_3 astore_0 astore_1 astore_2 astore_3
iastore lastore fastore dastore aastore bastore castore sastore
pop pop2 dup dup_x1 dup_x2 dup2 dup2_x1 dup2_x2 swap
iadd ladd fadd dadd isub lsub fsub dsub imul lmul fmul dmul idiv ldiv fdiv ddiv irem lrem frem drem ineg lneg fneg dneg
ishl lshl ishr lshr iushr lushr iand land ior lor ixor lxor iinc
i2l i2f i2d l2i l2f l2d f2i f2l f2d d2i d2l d2f i2b i2c i2s lcmp fcmpl fcmpg dcmpl dcmpg
ifeq ifne iflt ifge ifgt ifle if_icmpeq if_icmpne if_icmplt if_icmpge if_icmpgt if_icmple if_acmpeq if_acmpne
goto jsr ret tableswitch lookupswitch ireturn lreturn freturn dreturn areturn return
getstatic putstatic getfield putfield invokevirtual invokespecial invokestatic invokeinterface invokedynamic
new newarray anewarray arraylength athrow checkcast instanceof monitorenter monitorexit wide multianewarray
ifnull ifnonnull goto_w jsr_w""".split()

# What follows an opcode, as struct has it; the first is the operand that instructions() gives.
OPERANDS = {name: ">h" for name in OPCODES if name.startswith("if") or name in ("goto", "jsr", "sipush")}
OPERANDS |= {kind + name: ">B" for kind in "ilfda" for name in ("load", "store")}
OPERANDS |= {name: ">B" for name in ("ldc", "newarray", "ret")}
OPERANDS |= {name: ">H" for name in "ldc_w ldc2_w getstatic putstatic getfield putfield".split()}
OPERANDS |= {name: ">H" for name in "invokevirtual invokespecial invokestatic new anewarray checkcast instanceof".split()}
OPERANDS |= {"bipush": ">b", "iinc": ">Bb", "multianewarray": ">HB", "invokeinterface": ">HBB", "invokedynamic": ">HH"}
OPERANDS |= {"goto_w": ">i", "jsr_w": ">i"}

ENTRIES = {3: ">i", 4: ">f", 7: ">H", 8: ">H", 9: ">HH", 10: ">HH", 11: ">HH", 12: ">HH"}
ENTRIES |= {15: ">BH", 16: ">H", 18: ">HH"}

STATIC, SYNCHRONIZED, NATIVE, INTERFACE, ABSTRACT = 8, 32, 256, 512, 1024


class Bytes:
    def __init__(self, data):
        self.data, self.at = data, 0

    def take(self, form):
        values = struct.unpack_from(form, self.data, self.at)
        self.at += struct.calcsize(form)
        return values if len(values) > 1 else values[0]

    def cut(self, length):
        self.at += length
        return self.data[self.at - length : self.at]


class Code:
    def __init__(self, data, pool):
        bytes = Bytes(data)
        self.max_stack, self.max_locals, length = bytes.take(">HHI")
        self.bytes = bytes.cut(length)
        self.handlers = [bytes.take(">HHHH") for _ in range(bytes.take(">H"))]
        self.attributes = attributes(bytes, pool)

    def instructions(self):
        """Each as (place, name, operand, all operands), a wide one without its wide."""
        bytes = Bytes(self.bytes)
        while bytes.at < len(self.bytes):
            place, name = bytes.at, OPCODES[bytes.take(">B")]
            if name == "wide":
                name = OPCODES[bytes.take(">B")]
                operands = bytes.take(">Hh") if name == "iinc" else (bytes.take(">H"),)
            elif name in ("tableswitch", "lookupswitch"):
                bytes.at += -bytes.at % 4
                operands = switch(bytes, name)
            elif name in OPERANDS:
                operands = bytes.take(OPERANDS[name])
                operands = operands if isinstance(operands, tuple) else (operands,)
            else:
                operands = ()
            yield place, name, operands[0] if operands else None, operands


def switch(bytes, name):
    """The offset of the default, and that of each value."""
    default = bytes.take(">i")
    if name == "tableswitch":
        low, high = bytes.take(">ii")
        return default, {value: bytes.take(">i") for value in range(low, high + 1)}
    return default, dict(bytes.take(">ii") for _ in range(bytes.take(">i")))


def attributes(bytes, pool):
    return [(pool[bytes.take(">H")][1], bytes.cut(bytes.take(">I"))) for _ in range(bytes.take(">H"))]


class Member:
    def __init__(self, bytes, pool):
        self.flags, name, descriptor = bytes.take(">HHH")
        self.name, self.descriptor = pool[name][1], pool[descriptor][1]
        self.attributes = attributes(bytes, pool)
        codes = [data for name, data in self.attributes if name == "Code"]
        self.code = Code(codes[0], pool) if codes else None


class ClassFile:
    """Entries of the pool are (tag, value): a text, a number, or the entries that they name, by their numbers."""

    def __init__(self, path):
        self.path = Path(path)
        bytes = Bytes(self.path.read_bytes())
        magic, self.minor, self.major = bytes.take(">IHH")
        if magic != 0xCAFEBABE:
            raise ValueError(f"{path} is no class file")
        self.pool = read_pool(bytes)
        self.flags, name, above = bytes.take(">HHH")
        self.name = self.class_name(name)
        self.above = self.class_name(above) if above else None
        self.interfaces = [self.class_name(bytes.take(">H")) for _ in range(bytes.take(">H"))]
        self.fields = [Member(bytes, self.pool) for _ in range(bytes.take(">H"))]
        self.methods = [Member(bytes, self.pool) for _ in range(bytes.take(">H"))]
        self.attributes = attributes(bytes, self.pool)

    def class_name(self, index):
        return self.pool[self.pool[index][1]][1]

    def member(self, index):
        """The class, name and descriptor that a reference names."""
        owner, named = self.pool[index][1]
        name, descriptor = self.pool[named][1]
        return self.class_name(owner), self.pool[name][1], self.pool[descriptor][1]

    def numbers(self, *tags):
        return [number for number, entry in self.pool.items() if entry[0] in tags]

    def named_classes(self):
        """The classes that the pool names; for an array, those of its elements."""
        names = {element(self.class_name(number)) for number in self.numbers(7)}
        return {name for name in names if name is not None}

    def has_main(self):
        main = ("main", "([Ljava/lang/String;)V")
        return any((method.name, method.descriptor) == main and method.flags & STATIC for method in self.methods)

    def root(self):
        """The folder in which java looks for it by its name."""
        return self.path.resolve().parents[self.name.count("/")]


def element(name):
    """The class of an array's elements, None for a primitive type; other names stay as they are."""
    if not name.startswith("["):
        return name
    inner = name.lstrip("[")
    return inner[1:-1] if inner.startswith("L") else None


def read_pool(bytes):
    pool, number, count = {}, 1, bytes.take(">H")
    while number < count:
        tag = bytes.take(">B")
        if tag == 1:
            text = bytes.cut(bytes.take(">H")).replace(b"\xc0\x80", b"\0")
            pool[number] = (1, text.decode("utf-8", "surrogatepass"))
        elif tag in (5, 6):
            pool[number] = (tag, bytes.take(">q" if tag == 5 else ">d"))
        else:
            pool[number] = (tag, bytes.take(ENTRIES[tag]))
        number += 2 if tag in (5, 6) else 1
    return pool


def program(main, classes):
    """The classes, of a map by name, that a class names, that these name, and so on; itself first."""
    found = {main.name: main}
    waiting = [main]
    while waiting:
        for name in sorted(waiting.pop().named_classes()):
            if name in classes and name not in found:
                found[name] = classes[name]
                waiting.append(classes[name])
    return list(found.values())
