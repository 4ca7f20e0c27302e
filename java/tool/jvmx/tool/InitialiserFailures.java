package jvmx.tool;

import org.objectweb.asm.Opcodes;
import org.objectweb.asm.tree.InsnList;
import org.objectweb.asm.tree.InsnNode;
import org.objectweb.asm.tree.JumpInsnNode;
import org.objectweb.asm.tree.LabelNode;
import org.objectweb.asm.tree.MethodInsnNode;
import org.objectweb.asm.tree.MethodNode;
import org.objectweb.asm.tree.TryCatchBlockNode;
import org.objectweb.asm.tree.TypeInsnNode;

/** Gives the error of a class whose initialisation fails its cause, which the machine's own error lacks. */
final class InitialiserFailures {
    static final String ERROR = "jx/ex/ExceptionInInitializerError";
    private static final String DESCRIPTOR = "(Ljava/lang/Throwable;)V";
    /** The key of the constructor with a cause. */
    static final String KEY = "<init>" + DESCRIPTOR;

    private InitialiserFailures() { }

    /** Adds a handler after the end of a static initialiser: it passes errors on, and wraps exceptions. */
    static void add(MethodNode initialiser) {
        LabelNode begin = new LabelNode();
        LabelNode end = new LabelNode();
        LabelNode exception = new LabelNode();
        initialiser.instructions.insert(begin);
        InsnList handler = new InsnList();
        handler.add(end);
        handler.add(new InsnNode(Opcodes.DUP));
        handler.add(new TypeInsnNode(Opcodes.INSTANCEOF, "java/lang/Error"));
        handler.add(new JumpInsnNode(Opcodes.IFEQ, exception));
        handler.add(new InsnNode(Opcodes.ATHROW));
        handler.add(exception);
        handler.add(new TypeInsnNode(Opcodes.NEW, ERROR));
        handler.add(new InsnNode(Opcodes.DUP_X1));
        handler.add(new InsnNode(Opcodes.SWAP));
        handler.add(new MethodInsnNode(Opcodes.INVOKESPECIAL, ERROR, "<init>", DESCRIPTOR, false));
        handler.add(new InsnNode(Opcodes.ATHROW));
        initialiser.instructions.add(handler);
        initialiser.tryCatchBlocks.add(new TryCatchBlockNode(begin, end, end, BuiltIns.THROWABLE));
    }
}
