package jvmx.tool;

import java.util.Arrays;
import java.util.List;
import org.objectweb.asm.Label;
import org.objectweb.asm.Opcodes;
import org.objectweb.asm.Type;
import org.objectweb.asm.tree.ClassNode;
import org.objectweb.asm.tree.FieldNode;
import org.objectweb.asm.tree.MethodNode;

/** Adds to each class what the machine's Object lacks: its class, a number of its own, and marks of what it overrides. */
final class Equipment {
    /** The field that has an object's identity number. */
    static final String NUMBER = "jx$id";

    /** The interfaces that say what a class has. */
    static final List<String> MARKS = Arrays.asList("jx/HasHash", "jx/HasEquals", "jx/HasString", "jx/HasClass", "jx/HasId");

    private Equipment() { }

    /** Adds it to a class that is about to be written. */
    static void add(ClassNode node) {
        boolean isInterface = (node.access & Opcodes.ACC_INTERFACE) != 0;
        if (isInterface || ProgramClass.isRaw(node.name) || node.name.startsWith("jx/gen/") || node.name.equals("jx/Obj")) {
            return;
        }
        addMarks(node);
        addClass(node);
        if (BuiltIns.isKept(node.superName)) {
            addNumber(node);
        }
    }

    private static void addMarks(ClassNode node) {
        for (MethodNode method : node.methods) {
            String mark = markOf(Names.key(method.name, method.desc));
            boolean isStatic = (method.access & Opcodes.ACC_STATIC) != 0;
            if (mark != null && !isStatic && !node.interfaces.contains(mark)) {
                node.interfaces.add(mark);
            }
        }
    }

    private static String markOf(String key) {
        switch (key) {
            case "hashCode()I": return "jx/HasHash";
            case "equals(Ljava/lang/Object;)Z": return "jx/HasEquals";
            case "toString()Ljx/Str;": return "jx/HasString";
            default: return null;
        }
    }

    private static void addClass(ClassNode node) {
        node.methods.add(constantClass("jxClass", node.name));
        node.interfaces.add("jx/HasClass");
        if (node.superName.equals(BuiltIns.ENUM)) {
            node.methods.add(constantClass("getDeclaringClass", node.name));
        }
    }

    private static MethodNode constantClass(String name, String className) {
        MethodNode made = new MethodNode(Opcodes.ACC_PUBLIC | Opcodes.ACC_SYNTHETIC, name, "()Ljava/lang/Class;", null, null);
        made.visitLdcInsn(Type.getObjectType(className));
        made.visitInsn(Opcodes.ARETURN);
        return made;
    }

    private static void addNumber(ClassNode node) {
        node.fields.add(new FieldNode(Opcodes.ACC_PRIVATE | Opcodes.ACC_SYNTHETIC, NUMBER, "I", null, null));
        MethodNode made = new MethodNode(Opcodes.ACC_PUBLIC | Opcodes.ACC_SYNTHETIC, "jxId", "(I)I", null, null);
        Label read = new Label();
        made.visitVarInsn(Opcodes.ILOAD, 1);
        made.visitJumpInsn(Opcodes.IFEQ, read);
        made.visitVarInsn(Opcodes.ALOAD, 0);
        made.visitVarInsn(Opcodes.ILOAD, 1);
        made.visitFieldInsn(Opcodes.PUTFIELD, node.name, NUMBER, "I");
        made.visitLabel(read);
        made.visitVarInsn(Opcodes.ALOAD, 0);
        made.visitFieldInsn(Opcodes.GETFIELD, node.name, NUMBER, "I");
        made.visitInsn(Opcodes.IRETURN);
        node.methods.add(made);
        node.interfaces.add("jx/HasId");
    }
}
