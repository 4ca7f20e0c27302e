#!/usr/bin/env python3
"""Reports what class files have that is beyond what jvmx runs: classes and members that are neither in the files nor built
in, instructions, types and versions, attributes that would matter. The files are taken as one program.

    bench/profile.py [--needs] [--unused] FILE.class...

With --needs it prints for each class with a main what its program needs: exceptions, initialisers, monitors, threads.
With --unused it ends with the instructions that jvmx runs and that no file has.
"""
import re
import sys
from pathlib import Path

sys.dont_write_bytecode = True
sys.path.insert(0, str(Path(__file__).resolve().parent))
import java_class  # noqa: E402

BELOW = {
    "Throwable": "Exception Error",
    "Exception": "RuntimeException InterruptedException",
    "RuntimeException": "ArithmeticException ArrayStoreException ClassCastException IllegalMonitorStateException "
    "IllegalArgumentException IllegalStateException IndexOutOfBoundsException NegativeArraySizeException "
    "NullPointerException",
    "IndexOutOfBoundsException": "ArrayIndexOutOfBoundsException",
    "IllegalArgumentException": "IllegalThreadStateException",
    "Error": "LinkageError VirtualMachineError",
    "LinkageError": "NoClassDefFoundError IncompatibleClassChangeError UnsatisfiedLinkError ExceptionInInitializerError",
    "IncompatibleClassChangeError": "AbstractMethodError InstantiationError NoSuchFieldError NoSuchMethodError",
    "VirtualMachineError": "OutOfMemoryError StackOverflowError",
}
MADE = {("<init>", "()V"), ("<init>", "(Ljava/lang/String;)V")}
PRINTED = {(name, descriptor) for name in ("print", "println") for descriptor in ("(I)V", "(J)V", "(Ljava/lang/String;)V")}

# The class above, the interfaces, and the members, but for the fields `message` of Throwable and `target` of Thread,
# which java doesn't have.
BUILT_IN = {
    "java/lang/Object": (None, [], {(name, "()V") for name in ("<init>", "wait", "notify", "notifyAll")}),
    "java/lang/String": ("java/lang/Object", ["java/io/Serializable"], set()),
    "java/lang/Class": ("java/lang/Object", ["java/io/Serializable"], set()),
    "java/lang/System": ("java/lang/Object", [], {("out", "Ljava/io/PrintStream;")}),
    "java/io/PrintStream": ("java/lang/Object", [], PRINTED | {("println", "()V")}),
    "java/lang/Runnable": ("java/lang/Object", [], {("run", "()V")}),
    "java/lang/Cloneable": ("java/lang/Object", [], set()),
    "java/io/Serializable": ("java/lang/Object", [], set()),
    "java/lang/Thread": (
        "java/lang/Object",
        ["java/lang/Runnable"],
        {("<init>", "()V"), ("<init>", "(Ljava/lang/Runnable;)V"), ("run", "()V"), ("start", "()V"), ("join", "()V")},
    ),
    "java/lang/Throwable": ("java/lang/Object", ["java/io/Serializable"], MADE | {("getMessage", "()Ljava/lang/String;")}),
}
BUILT_IN |= {
    "java/lang/" + name: ("java/lang/" + above, [], MADE) for above, names in BELOW.items() for name in names.split()
}

NEVER_MADE = {"java/lang/String", "java/lang/Class", "java/lang/System", "java/io/PrintStream"}
OF_OTHER_TYPES = {name for name in java_class.OPCODES if name[0] in "fd" and not name.startswith("dup")}
BEYOND = OF_OTHER_TYPES | {"i2f", "i2d", "l2f", "l2d", "invokedynamic"}

# Attributes that say nothing of what a program does.
IDLE = set("""SourceFile LineNumberTable LocalVariableTable LocalVariableTypeTable InnerClasses EnclosingMethod Synthetic
Signature Deprecated StackMapTable""".split())
READ = {"ConstantValue", "Code", "Exceptions"}


class Profile:
    def __init__(self, classes):
        self.classes = {one.name: one for one in classes}
        self.used = set()

    def above(self, name):
        """The class above and the interfaces, None where there is no such class."""
        if name.startswith("["):
            return "java/lang/Object", ["java/lang/Cloneable", "java/io/Serializable"]
        if name in BUILT_IN:
            return BUILT_IN[name][:2]
        if name in self.classes:
            return self.classes[name].above, self.classes[name].interfaces
        return None

    def declares(self, name, member):
        if name in BUILT_IN:
            return member in BUILT_IN[name][2]
        if name not in self.classes:
            return False
        one = self.classes[name]
        return any((known.name, known.descriptor) == member for known in one.fields + one.methods)

    def declarer(self, name, member):
        """The class that declares what a reference names, None where there is none."""
        if name is None or self.above(name) is None:
            return None
        if self.declares(name, member):
            return name
        if member[0] == "<init>":
            return None
        above, interfaces = self.above(name)
        found = (self.declarer(other, member) for other in [above, *interfaces])
        return next((declarer for declarer in found if declarer), None)

    def faults(self, one):
        if not 45 <= one.major <= 50:
            yield f"version {one.major}"
        if one.name in BUILT_IN:
            yield "a built-in class's name"
        for name in sorted(one.named_classes()):
            if self.above(name) is None:
                yield f"class {name}"
        for number in one.numbers(9, 10, 11):
            owner, name, descriptor = one.member(number)
            if not self.declarer(owner, (name, descriptor)):
                yield f"member {owner}.{name}.{descriptor}"
            yield from beyond_types(descriptor, f"{owner}.{name}")
        for member in one.fields + one.methods:
            yield from beyond_types(member.descriptor, member.name)
            if member.flags & java_class.NATIVE:
                yield f"native {member.name}"
            yield from attribute_faults(member.attributes, member.name)
            if member.code:
                yield from attribute_faults(member.code.attributes, member.name)
                yield from self.code_faults(one, member)
        yield from attribute_faults(one.attributes, "the class")

    def code_faults(self, one, method):
        for place, name, operand, _ in method.code.instructions():
            self.used.add(name)
            if name in BEYOND:
                yield f"{name} in {method.name} at {place}"
            if name in ("ldc", "ldc_w") and one.pool[operand][0] == 4:
                yield f"{name} of a float in {method.name} at {place}"
            if name == "ldc2_w" and one.pool[operand][0] == 6:
                yield f"ldc2_w of a double in {method.name} at {place}"
            if name == "newarray" and operand in (6, 7):
                yield f"newarray {operand} in {method.name} at {place}"
            if name in ("anewarray", "multianewarray") and one.class_name(operand).startswith("["):
                yield from beyond_types(one.class_name(operand), f"{name} in {method.name} at {place}")
            if name == "new" and one.class_name(operand) in NEVER_MADE:
                yield f"new of {one.class_name(operand)} in {method.name} at {place}"


def beyond_types(descriptor, where):
    for letter in sorted(set(re.sub("L[^;]*;", "", descriptor)) & set("FD")):
        yield f"type {letter} in {where}"


def attribute_faults(attributes, where):
    for name, _ in attributes:
        if name not in IDLE | READ:
            yield f"attribute {name} of {where}"


def needs(profile, classes):
    """What the classes need beyond plain instructions and calls."""
    found = set()
    for one in classes:
        for number in one.numbers(10):
            owner, name, descriptor = one.member(number)
            if name in ("start", "join") and profile.declarer(owner, (name, descriptor)) == "java/lang/Thread":
                found.add("threads")
        for method in one.methods:
            names = {name for _, name, _, _ in method.code.instructions()} if method.code else set()
            if method.name == "<clinit>":
                found.add("initialisers")
            if method.code and method.code.handlers or "athrow" in names:
                found.add("exceptions")
            if method.flags & java_class.SYNCHRONIZED or names & {"monitorenter", "monitorexit"}:
                found.add("monitors")
    return sorted(found)


def main():
    words = sys.argv[1:]
    classes = [java_class.ClassFile(path) for path in words if not path.startswith("--")]
    roots = {}
    for one in classes:
        roots.setdefault(one.root(), []).append(one)
    count, used = 0, set()
    for root in roots.values():
        profile = Profile(root)
        for one in root:
            for fault in profile.faults(one):
                count += 1
                print(f"{one.path}: {fault}")
        used |= profile.used
        if "--needs" in words:
            for one in filter(java_class.ClassFile.has_main, root):
                found = needs(profile, java_class.program(one, profile.classes))
                print(f"{one.path}: {', '.join(found) or 'nothing more'}")
    if "--unused" in words:
        print("unused:", *(name for name in java_class.OPCODES if name not in used | BEYOND | {"wide"}))
    print(f"{len(classes)} files, {count} things beyond the profile")
    return 1 if count else 0


if __name__ == "__main__":
    sys.exit(main())
