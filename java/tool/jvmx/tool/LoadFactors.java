package jvmx.tool;

import org.objectweb.asm.Opcodes;
import org.objectweb.asm.tree.AbstractInsnNode;
import org.objectweb.asm.tree.LdcInsnNode;
import org.objectweb.asm.tree.MethodInsnNode;
import org.objectweb.asm.tree.MethodNode;

/** Passes constant load factors to constructors of the library as the bits of the float, which the machine can push. */
final class LoadFactors {
    /** How many instructions may be between the constant and the call. */
    private static final int DISTANCE = 4;

    private final World world;

    LoadFactors(World world) {
        this.world = world;
    }

    /** Replaces the constant and the call where the library's constructor takes bits; else both stay. */
    void replace(MethodNode method, MethodInsnNode call) {
        boolean isConstructor = call.getOpcode() == Opcodes.INVOKESPECIAL && call.name.equals("<init>");
        if (!isConstructor || call.desc.indexOf('F') < 0) {
            return;
        }
        String descriptor = call.desc.replaceFirst("(?<=[(ZI])F", "I");
        ProgramClass owner = world.find(call.owner);
        if (owner == null || owner.method("<init>" + descriptor) == null || owner.method("<init>" + call.desc) != null) {
            return;
        }
        AbstractInsnNode at = call.getPrevious();
        for (int count = 0; count < DISTANCE && at != null; at = at.getPrevious()) {
            Float value = constant(at);
            if (value != null) {
                method.instructions.set(at, new LdcInsnNode(Float.floatToRawIntBits(value)));
                call.desc = descriptor;
                return;
            }
            count += at.getOpcode() >= 0 ? 1 : 0;
        }
    }

    private static Float constant(AbstractInsnNode instruction) {
        int opcode = instruction.getOpcode();
        if (opcode >= Opcodes.FCONST_0 && opcode <= Opcodes.FCONST_2) {
            return (float) (opcode - Opcodes.FCONST_0);
        }
        Object constant = instruction instanceof LdcInsnNode ? ((LdcInsnNode) instruction).cst : null;
        return constant instanceof Float ? (Float) constant : null;
    }
}
