package jvmx.tool;

import java.util.ArrayList;
import java.util.List;
import org.objectweb.asm.Opcodes;
import org.objectweb.asm.tree.AbstractInsnNode;
import org.objectweb.asm.tree.ClassNode;
import org.objectweb.asm.tree.MethodInsnNode;
import org.objectweb.asm.tree.MethodNode;

/**
 * Stops a thread before an instruction of the library or of the JDK that needs what isn't there. The machine would throw
 * an error, which such code may catch, so that nobody would see it.
 */
final class Stops {
    static final String CLASS = "jx/gen/Missing";

    private static final String DESCRIPTOR = "()V";
    private static final String OUT_TYPE = "Ljx/Out;";
    private static final String PRINT_DESCRIPTOR = "(Ljx/Str;)V";
    /** The key of the library's method that prints the message. */
    static final String PRINT = "println" + PRINT_DESCRIPTOR;

    private final Literals literals;
    private final List<String> messages = new ArrayList<>();

    Stops(Literals literals) {
        this.literals = literals;
    }

    /** Puts a stop that prints a message before an instruction. */
    void insert(MethodNode method, AbstractInsnNode instruction, String message) {
        MethodInsnNode call = new MethodInsnNode(Opcodes.INVOKESTATIC, CLASS, name(messages.size()), DESCRIPTOR, false);
        messages.add(message);
        method.instructions.insertBefore(instruction, call);
    }

    private static String name(int number) {
        return "stop" + number;
    }

    boolean isEmpty() {
        return messages.isEmpty();
    }

    /** Returns the class that has the stops. Each ends at an instruction of float, before which the machine stops a thread. */
    ClassNode make() {
        ClassNode made = new ClassNode();
        made.visit(Opcodes.V1_5, Opcodes.ACC_PUBLIC | Opcodes.ACC_FINAL | Opcodes.ACC_SUPER, CLASS, null, BuiltIns.OBJECT, null);
        for (int i = 0; i < messages.size(); i++) {
            MethodNode method = new MethodNode(Opcodes.ACC_PUBLIC | Opcodes.ACC_STATIC, name(i), DESCRIPTOR, null, null);
            method.visitFieldInsn(Opcodes.GETSTATIC, "jx/Sys", "err", OUT_TYPE);
            literals.load(method, "jvmx-java: a thread stops here: " + messages.get(i));
            method.visitMethodInsn(Opcodes.INVOKEVIRTUAL, "jx/Out", "println", PRINT_DESCRIPTOR, false);
            method.visitInsn(Opcodes.FCONST_0);
            method.visitInsn(Opcodes.POP);
            method.visitInsn(Opcodes.RETURN);
            made.methods.add(method);
        }
        return made;
    }
}
