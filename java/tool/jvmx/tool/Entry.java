package jvmx.tool;

import org.objectweb.asm.Label;
import org.objectweb.asm.Opcodes;
import org.objectweb.asm.tree.ClassNode;
import org.objectweb.asm.tree.MethodNode;

/** Makes the class that the machine begins with: it sets the first thread up and calls the program's main method. */
final class Entry {
    private static final String THREADS = "jx/Thr";
    private static final String EXIT = "exitMain";
    private static final String EXIT_DESCRIPTOR = "(Ljava/lang/Throwable;)V";
    /** The key of the library's method that ends the first thread. */
    static final String EXIT_KEY = EXIT + EXIT_DESCRIPTOR;

    private Entry() { }

    /** Returns the class that calls the main method of a class on no strings, and ends the first thread if asked to. */
    static ClassNode classOf(String main, boolean hasExit) {
        ClassNode made = new ClassNode();
        made.visit(Opcodes.V1_5, Opcodes.ACC_PUBLIC | Opcodes.ACC_SUPER, Program.ENTRY, null, BuiltIns.OBJECT, null);
        MethodNode method = new MethodNode(Opcodes.ACC_PUBLIC | Opcodes.ACC_STATIC, "main", "([Ljava/lang/String;)V", null, null);
        Label begin = new Label();
        Label end = new Label();
        method.visitMethodInsn(Opcodes.INVOKESTATIC, THREADS, "enterMain", "()V", false);
        method.visitLabel(begin);
        method.visitInsn(Opcodes.ICONST_0);
        method.visitTypeInsn(Opcodes.ANEWARRAY, BuiltIns.TEXT);
        method.visitMethodInsn(Opcodes.INVOKESTATIC, main, "main", "([L" + BuiltIns.TEXT + ";)V", false);
        method.visitLabel(end);
        if (hasExit) {
            writeExit(method, begin, end);
        }
        method.visitInsn(Opcodes.RETURN);
        made.methods.add(method);
        return made;
    }

    private static void writeExit(MethodNode method, Label begin, Label end) {
        Label handler = new Label();
        method.visitTryCatchBlock(begin, end, handler, BuiltIns.THROWABLE);
        method.visitInsn(Opcodes.ACONST_NULL);
        method.visitMethodInsn(Opcodes.INVOKESTATIC, THREADS, EXIT, EXIT_DESCRIPTOR, false);
        method.visitInsn(Opcodes.RETURN);
        method.visitLabel(handler);
        method.visitMethodInsn(Opcodes.INVOKESTATIC, THREADS, EXIT, EXIT_DESCRIPTOR, false);
    }
}
