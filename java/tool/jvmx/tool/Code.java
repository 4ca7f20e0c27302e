package jvmx.tool;

import org.objectweb.asm.Label;
import org.objectweb.asm.MethodVisitor;
import org.objectweb.asm.Opcodes;
import org.objectweb.asm.Type;
import org.objectweb.asm.tree.AbstractInsnNode;
import org.objectweb.asm.tree.LineNumberNode;

/** Writes instructions that several generators need. */
final class Code {
    private Code() { }

    /** Writes the line of the instructions that follow; 0 writes none. */
    static void line(MethodVisitor method, int line) {
        if (line > 0) {
            Label label = new Label();
            method.visitLabel(label);
            method.visitLineNumber(line, label);
        }
    }

    /** Writes the loads of arguments of these types from consecutive locals, and returns the next local. */
    static int loadArguments(MethodVisitor method, Type[] types, int first) {
        int local = first;
        for (Type type : types) {
            method.visitVarInsn(type.getOpcode(Opcodes.ILOAD), local);
            local += type.getSize();
        }
        return local;
    }

    /** Writes the shortest instruction that pushes an int. */
    static void push(MethodVisitor method, int value) {
        if (value >= -1 && value <= 5) {
            method.visitInsn(Opcodes.ICONST_0 + value);
        } else if (value >= Byte.MIN_VALUE && value <= Byte.MAX_VALUE) {
            method.visitIntInsn(Opcodes.BIPUSH, value);
        } else if (value >= Short.MIN_VALUE && value <= Short.MAX_VALUE) {
            method.visitIntInsn(Opcodes.SIPUSH, value);
        } else {
            method.visitLdcInsn(value);
        }
    }

    /** Returns the source line of an instruction, or 0 if the class file doesn't have it. */
    static int lineOf(AbstractInsnNode instruction) {
        for (AbstractInsnNode at = instruction; at != null; at = at.getPrevious()) {
            if (at instanceof LineNumberNode) {
                return ((LineNumberNode) at).line;
            }
        }
        return 0;
    }

    /** Returns the number of an instruction in its method, counted from 0. */
    static int indexOf(AbstractInsnNode instruction) {
        int index = 0;
        for (AbstractInsnNode at = instruction.getPrevious(); at != null; at = at.getPrevious()) {
            if (at.getOpcode() >= 0) {
                index++;
            }
        }
        return index;
    }
}
