package jvmx.tool;

import org.objectweb.asm.Opcodes;
import org.objectweb.asm.tree.AbstractInsnNode;
import org.objectweb.asm.tree.FieldInsnNode;
import org.objectweb.asm.tree.InsnNode;
import org.objectweb.asm.tree.IntInsnNode;
import org.objectweb.asm.tree.JumpInsnNode;
import org.objectweb.asm.tree.MethodInsnNode;
import org.objectweb.asm.tree.MethodNode;

/**
 * Leaves tables and constants of doubles out of the static initialisers of the JDK. What reads them is code on doubles,
 * before which the machine stops anyway.
 */
final class StaticDoubles {
    private StaticDoubles() { }

    /** Changes a static initialiser of the JDK; other methods stay. */
    static void remove(ProgramMethod method, MethodNode body) {
        if (method.owner.origin != Origin.JDK || !method.name.equals("<clinit>")) {
            return;
        }
        for (AbstractInsnNode instruction : body.instructions.toArray()) {
            if (isNewArray(instruction)) {
                body.instructions.insertBefore(instruction, new InsnNode(Opcodes.POP));
                body.instructions.set(instruction, new InsnNode(Opcodes.ACONST_NULL));
            } else if (isField(instruction, Opcodes.GETSTATIC, "[D")) {
                removeStore(body, instruction);
            } else if (isField(instruction, Opcodes.PUTSTATIC, "[D") || isField(instruction, Opcodes.PUTSTATIC, "[F")) {
                body.instructions.set(instruction, new InsnNode(Opcodes.POP));
            } else if (isField(instruction, Opcodes.PUTSTATIC, "D")) {
                removeConstant(body, instruction);
            }
        }
    }

    private static boolean isNewArray(AbstractInsnNode instruction) {
        int operand = instruction.getOpcode() == Opcodes.NEWARRAY ? ((IntInsnNode) instruction).operand : 0;
        return operand == Opcodes.T_DOUBLE || operand == Opcodes.T_FLOAT;
    }

    private static boolean isField(AbstractInsnNode instruction, int opcode, String descriptor) {
        return instruction.getOpcode() == opcode && ((FieldInsnNode) instruction).desc.equals(descriptor);
    }

    /** Removes a straight run from the read of a table to the store into it. */
    private static void removeStore(MethodNode body, AbstractInsnNode first) {
        AbstractInsnNode last = first;
        while (last != null && last.getOpcode() != Opcodes.DASTORE) {
            if (last instanceof JumpInsnNode) {
                return;
            }
            last = last.getNext();
        }
        if (last != null) {
            removeRun(body, first, last);
        }
    }

    private static void removeRun(MethodNode body, AbstractInsnNode first, AbstractInsnNode last) {
        AbstractInsnNode at = first;
        while (at != last) {
            AbstractInsnNode next = at.getNext();
            if (at.getOpcode() >= 0) {
                body.instructions.remove(at);
            }
            at = next;
        }
        body.instructions.remove(last);
    }

    /** Removes a store of a constant, or of what a function of doubles returns for one. */
    private static void removeConstant(MethodNode body, AbstractInsnNode store) {
        AbstractInsnNode value = before(store);
        boolean isCall = value instanceof MethodInsnNode && ((MethodInsnNode) value).desc.equals("(D)D");
        AbstractInsnNode constant = isCall ? before(value) : value;
        if (constant != null && (constant.getOpcode() == Opcodes.LDC || constant.getOpcode() == Opcodes.DCONST_0
                || constant.getOpcode() == Opcodes.DCONST_1)) {
            removeRun(body, constant, store);
        }
    }

    private static AbstractInsnNode before(AbstractInsnNode instruction) {
        AbstractInsnNode at = instruction.getPrevious();
        while (at != null && at.getOpcode() < 0) {
            at = at.getPrevious();
        }
        return at;
    }
}
