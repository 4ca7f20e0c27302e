package jvmx.tool;

import java.util.ArrayList;
import java.util.List;
import org.objectweb.asm.Opcodes;
import org.objectweb.asm.tree.AbstractInsnNode;
import org.objectweb.asm.tree.JumpInsnNode;
import org.objectweb.asm.tree.LookupSwitchInsnNode;
import org.objectweb.asm.tree.TableSwitchInsnNode;

/** Knows where instructions lead. */
final class Flow {
    private Flow() { }

    /** Returns the labels that an instruction may jump to. */
    static List<AbstractInsnNode> targets(AbstractInsnNode instruction) {
        List<AbstractInsnNode> targets = new ArrayList<>();
        if (instruction instanceof JumpInsnNode) {
            targets.add(((JumpInsnNode) instruction).label);
        } else if (instruction instanceof TableSwitchInsnNode) {
            targets.add(((TableSwitchInsnNode) instruction).dflt);
            targets.addAll(((TableSwitchInsnNode) instruction).labels);
        } else if (instruction instanceof LookupSwitchInsnNode) {
            targets.add(((LookupSwitchInsnNode) instruction).dflt);
            targets.addAll(((LookupSwitchInsnNode) instruction).labels);
        }
        return targets;
    }

    /** Returns whether the instruction after one of this opcode doesn't follow it. */
    static boolean endsPath(int opcode) {
        return opcode == Opcodes.GOTO || opcode == Opcodes.ATHROW || opcode >= Opcodes.IRETURN && opcode <= Opcodes.RETURN
            || opcode == Opcodes.TABLESWITCH || opcode == Opcodes.LOOKUPSWITCH || opcode == Opcodes.RET;
    }
}
