package jvmx.tool;

import java.util.ArrayList;
import java.util.List;
import java.util.TreeMap;
import org.objectweb.asm.Label;
import org.objectweb.asm.Opcodes;
import org.objectweb.asm.tree.MethodNode;

/** Writes the search among the constant strings of the program by which intern returns the constant itself. */
final class LiteralSearch {
    private final Literals literals;

    LiteralSearch(Literals literals) {
        this.literals = literals;
    }

    /** Writes the body: it takes a text, and returns the constant that equals it, or null. */
    void write(MethodNode method) {
        TreeMap<Integer, List<String>> byHash = new TreeMap<>();
        for (String text : literals.texts()) {
            byHash.computeIfAbsent(text.hashCode(), x -> new ArrayList<>()).add(text);
        }
        Label none = new Label();
        int[] keys = new int[byHash.size()];
        Label[] labels = new Label[byHash.size()];
        int next = 0;
        for (int hash : byHash.keySet()) {
            keys[next] = hash;
            labels[next++] = new Label();
        }
        method.visitVarInsn(Opcodes.ALOAD, 0);
        method.visitMethodInsn(Opcodes.INVOKEVIRTUAL, BuiltIns.TEXT, "hashCode", "()I", false);
        method.visitLookupSwitchInsn(none, keys, labels);
        next = 0;
        for (List<String> texts : byHash.values()) {
            method.visitLabel(labels[next++]);
            texts.forEach(text -> compare(method, text));
            method.visitJumpInsn(Opcodes.GOTO, none);
        }
        method.visitLabel(none);
        method.visitInsn(Opcodes.ACONST_NULL);
        method.visitInsn(Opcodes.ARETURN);
    }

    private void compare(MethodNode method, String text) {
        Label different = new Label();
        method.visitVarInsn(Opcodes.ALOAD, 0);
        literals.load(method, text);
        method.visitMethodInsn(Opcodes.INVOKEVIRTUAL, BuiltIns.TEXT, "equals", "(Ljava/lang/Object;)Z", false);
        method.visitJumpInsn(Opcodes.IFEQ, different);
        literals.load(method, text);
        method.visitInsn(Opcodes.ARETURN);
        method.visitLabel(different);
    }
}
