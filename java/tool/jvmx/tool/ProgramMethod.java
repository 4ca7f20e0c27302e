package jvmx.tool;

import org.objectweb.asm.Opcodes;
import org.objectweb.asm.tree.MethodNode;

/** Is a method of the program under its new name. Its body is adapted when the program reaches it. */
final class ProgramMethod {
    final ProgramClass owner;
    final String name;
    final String descriptor;
    /** The method as its class file has it. */
    final MethodNode source;
    /** The adapted method, or null before it was adapted. */
    MethodNode adapted;
    /** Whether the program can call it. */
    boolean isReached;
    /** Whether an instruction names it, so that it has to be found. */
    boolean isNamed;
    int access;

    ProgramMethod(ProgramClass owner, String name, String descriptor, MethodNode source) {
        this.owner = owner;
        this.name = name;
        this.descriptor = descriptor;
        this.source = source;
        this.access = source.access;
    }

    String key() {
        return Names.key(name, descriptor);
    }

    boolean is(int flag) {
        return (access & flag) != 0;
    }

    boolean isStatic() {
        return is(Opcodes.ACC_STATIC);
    }

    boolean isAbstract() {
        return is(Opcodes.ACC_ABSTRACT);
    }

    /** Returns whether it is a method of an interface that has a body, other than the initialiser. */
    boolean isInterfaceBody() {
        return owner.isInterface() && !isAbstract() && !name.equals("<clinit>");
    }

    /** Returns whether calls select it by the receiver's class. */
    boolean isVirtual() {
        return !isStatic() && !is(Opcodes.ACC_PRIVATE) && !name.startsWith("<");
    }
}
