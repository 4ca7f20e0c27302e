package jvmx.tool;

import java.util.ArrayList;
import java.util.LinkedHashMap;
import java.util.LinkedHashSet;
import java.util.List;
import java.util.Map;
import java.util.Set;
import org.objectweb.asm.Opcodes;
import org.objectweb.asm.tree.ClassNode;
import org.objectweb.asm.tree.FieldNode;

/** Is a class of the program: its head and its fields under their new names, and its methods. */
final class ProgramClass {
    /** The head and the fields, without methods. */
    final ClassNode node;
    final Origin origin;
    /** The superclass, or null where the machine has it. */
    ProgramClass superclass;
    final List<ProgramClass> interfaces = new ArrayList<>();
    /** The class itself and the names of all its superclasses and superinterfaces. */
    final Set<String> ancestors = new LinkedHashSet<>();
    final Map<String, ProgramMethod> methods = new LinkedHashMap<>();
    boolean isInstantiated;
    boolean isInitialised;
    /** Whether code of the program names it, so that it has to be written. */
    boolean isUsed;

    ProgramClass(ClassNode node, Origin origin) {
        this.node = node;
        this.origin = origin;
    }

    String name() {
        return node.name;
    }

    boolean isInterface() {
        return (node.access & Opcodes.ACC_INTERFACE) != 0;
    }

    boolean isUser() {
        return origin == Origin.USER;
    }

    /** Returns whether it is of the package whose classes use the machine's own String and Thread. */
    boolean isRaw() {
        return isRaw(node.name);
    }

    static boolean isRaw(String name) {
        return name.startsWith("jx/raw/");
    }

    boolean isEnum() {
        return BuiltIns.ENUM.equals(node.superName);
    }

    ProgramMethod method(String key) {
        return methods.get(key);
    }

    FieldNode field(String name, String descriptor) {
        for (FieldNode field : node.fields) {
            if (field.name.equals(name) && field.desc.equals(descriptor)) {
                return field;
            }
        }
        return null;
    }
}
