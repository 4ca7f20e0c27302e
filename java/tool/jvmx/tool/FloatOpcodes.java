package jvmx.tool;

import java.util.BitSet;
import org.objectweb.asm.Opcodes;

/** Knows the opcodes of float and double, which the machine reads and doesn't run. */
final class FloatOpcodes {
    private static final BitSet ALL = new BitSet();

    static {
        int[] opcodes = {
            Opcodes.FCONST_0, Opcodes.FCONST_1, Opcodes.FCONST_2, Opcodes.DCONST_0, Opcodes.DCONST_1,
            Opcodes.FLOAD, Opcodes.DLOAD, Opcodes.FALOAD, Opcodes.DALOAD, Opcodes.FSTORE, Opcodes.DSTORE,
            Opcodes.FASTORE, Opcodes.DASTORE, Opcodes.FADD, Opcodes.DADD, Opcodes.FSUB, Opcodes.DSUB,
            Opcodes.FMUL, Opcodes.DMUL, Opcodes.FDIV, Opcodes.DDIV, Opcodes.FREM, Opcodes.DREM, Opcodes.FNEG,
            Opcodes.DNEG, Opcodes.I2F, Opcodes.I2D, Opcodes.L2F, Opcodes.L2D, Opcodes.F2I, Opcodes.F2L,
            Opcodes.F2D, Opcodes.D2I, Opcodes.D2L, Opcodes.D2F, Opcodes.FCMPL, Opcodes.FCMPG, Opcodes.DCMPL,
            Opcodes.DCMPG, Opcodes.FRETURN, Opcodes.DRETURN
        };
        for (int opcode : opcodes) {
            ALL.set(opcode);
        }
    }

    private FloatOpcodes() { }

    /** Returns whether the opcode works on a float or a double. */
    static boolean isOne(int opcode) {
        return opcode >= 0 && ALL.get(opcode);
    }
}
