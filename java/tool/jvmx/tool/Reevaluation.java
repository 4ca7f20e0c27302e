package jvmx.tool;

import java.util.IdentityHashMap;
import java.util.Map;
import java.util.Set;
import org.objectweb.asm.Opcodes;
import org.objectweb.asm.tree.AbstractInsnNode;
import org.objectweb.asm.tree.FieldInsnNode;
import org.objectweb.asm.tree.IincInsnNode;
import org.objectweb.asm.tree.InsnList;
import org.objectweb.asm.tree.InsnNode;
import org.objectweb.asm.tree.LdcInsnNode;
import org.objectweb.asm.tree.MethodInsnNode;
import org.objectweb.asm.tree.MethodNode;
import org.objectweb.asm.tree.VarInsnNode;
import org.objectweb.asm.tree.analysis.Analyzer;
import org.objectweb.asm.tree.analysis.AnalyzerException;
import org.objectweb.asm.tree.analysis.Frame;
import org.objectweb.asm.tree.analysis.SourceInterpreter;
import org.objectweb.asm.tree.analysis.SourceValue;

/**
 * Finds instructions that push an operand of an instruction once more, where that has no effect and gives the same
 * value: reads of locals that didn't change since, constants, sums of these, fields of such locals.
 */
final class Reevaluation {
    private final Map<AbstractInsnNode, Frame<SourceValue>> frames;
    /** The instruction whose operand is pushed. */
    private final AbstractInsnNode at;
    private final InsnList pushed = new InsnList();

    private Reevaluation(Map<AbstractInsnNode, Frame<SourceValue>> frames, AbstractInsnNode at) {
        this.frames = frames;
        this.at = at;
    }

    /** Returns the frame before each instruction, or null if the method can't be analysed. */
    static Map<AbstractInsnNode, Frame<SourceValue>> frames(String owner, MethodNode method) {
        Map<AbstractInsnNode, Frame<SourceValue>> frames = new IdentityHashMap<>();
        try {
            Frame<SourceValue>[] found = new Analyzer<>(new SourceInterpreter()).analyze(owner, method);
            for (int i = 0; i < found.length; i++) {
                frames.put(method.instructions.get(i), found[i]);
            }
        } catch (AnalyzerException | RuntimeException unusual) {
            return null;
        }
        return frames;
    }

    /** Returns instructions that push the operand at a depth below the top, or null if it can't be had again. */
    static InsnList operand(Map<AbstractInsnNode, Frame<SourceValue>> frames, AbstractInsnNode at, int depth) {
        Reevaluation evaluation = new Reevaluation(frames, at);
        Frame<SourceValue> frame = evaluation.frame(at);
        if (frame == null || frame.getStackSize() <= depth) {
            return null;
        }
        int index = frame.getStackSize() - 1 - depth;
        return evaluation.push(frame.getStack(index), index) ? evaluation.pushed : null;
    }

    private Frame<SourceValue> frame(AbstractInsnNode instruction) {
        return frames.get(instruction);
    }

    /** Writes the push of a value that is at an index of the stack, and returns whether it can be had. */
    private boolean push(SourceValue value, int index) {
        AbstractInsnNode producer = only(value.insns);
        Frame<SourceValue> before = producer == null ? null : frame(producer);
        if (before == null) {
            return false;
        }
        int opcode = producer.getOpcode();
        if (opcode == Opcodes.DUP || opcode == Opcodes.DUP2) {
            int copied = opcode == Opcodes.DUP || before.getStack(before.getStackSize() - 1).getSize() == 2 ? 1 : 2;
            int source = index >= before.getStackSize() ? index - copied : index;
            return push(before.getStack(source), source);
        }
        if (opcode == Opcodes.ALOAD || opcode == Opcodes.ILOAD || opcode == Opcodes.LLOAD) {
            return pushLocal((VarInsnNode) producer, before);
        }
        if (opcode == Opcodes.DUP_X1) {
            return pushCounter(producer, before);
        }
        if (producer instanceof FieldInsnNode && mayBeWritten((FieldInsnNode) producer)) {
            return opcode == Opcodes.GETSTATIC && pushStaticCounter((FieldInsnNode) producer);
        }
        return isConstant(producer) ? add(producer) : pushOperands(producer, before, operands(producer));
    }

    /** Returns whether code between the read of a field and the instruction may have written it. */
    private boolean mayBeWritten(FieldInsnNode read) {
        for (AbstractInsnNode between = read; between != at && between != null; between = between.getNext()) {
            boolean isWrite = between.getOpcode() == Opcodes.PUTFIELD || between.getOpcode() == Opcodes.PUTSTATIC;
            if (between instanceof MethodInsnNode && !isBoxing(between) || isWrite && ((FieldInsnNode) between).name.equals(read.name)) {
                return true;
            }
        }
        return false;
    }

    /** Writes the push of `this.field++` or `++this.field`, whose value is copied below the object that has the field. */
    private boolean pushCounter(AbstractInsnNode copy, Frame<SourceValue> before) {
        AbstractInsnNode value = only(before.getStack(before.getStackSize() - 1).insns);
        AbstractInsnNode next = nextCode(copy);
        if (value == null || value.getOpcode() != Opcodes.GETFIELD) {
            return next.getOpcode() == Opcodes.PUTFIELD && pushField((FieldInsnNode) next, frame(next), 1);
        }
        AbstractInsnNode sum = nextCode(next);
        AbstractInsnNode write = nextCode(sum);
        boolean isCounter = isConstant(next) && (sum.getOpcode() == Opcodes.IADD || sum.getOpcode() == Opcodes.ISUB)
            && write.getOpcode() == Opcodes.PUTFIELD && ((FieldInsnNode) write).name.equals(((FieldInsnNode) value).name);
        return isCounter && pushField((FieldInsnNode) write, frame(write), 1) && undo(next, sum);
    }

    private boolean pushField(FieldInsnNode write, Frame<SourceValue> before, int depth) {
        int index = before.getStackSize() - 1 - depth;
        if (!push(before.getStack(index), index)) {
            return false;
        }
        pushed.add(new FieldInsnNode(Opcodes.GETFIELD, write.owner, write.name, write.desc));
        return true;
    }

    /** Writes the push of `field++` of a static field, as it was before. */
    private boolean pushStaticCounter(FieldInsnNode read) {
        AbstractInsnNode copy = nextCode(read);
        AbstractInsnNode one = nextCode(copy);
        AbstractInsnNode sum = nextCode(one);
        AbstractInsnNode write = nextCode(sum);
        boolean isCounter = copy.getOpcode() == Opcodes.DUP && isConstant(one) && write.getOpcode() == Opcodes.PUTSTATIC
            && (sum.getOpcode() == Opcodes.IADD || sum.getOpcode() == Opcodes.ISUB) && ((FieldInsnNode) write).name.equals(read.name);
        return isCounter && add(read) && undo(one, sum);
    }

    private boolean undo(AbstractInsnNode constant, AbstractInsnNode sum) {
        add(constant);
        pushed.add(new InsnNode(sum.getOpcode() == Opcodes.IADD ? Opcodes.ISUB : Opcodes.IADD));
        return true;
    }

    /** Returns the next instruction that runs; a method's code doesn't end before it leaves. */
    private static AbstractInsnNode nextCode(AbstractInsnNode instruction) {
        AbstractInsnNode next = instruction.getNext();
        while (next != null && next.getOpcode() < 0) {
            next = next.getNext();
        }
        return next == null ? instruction : next;
    }

    private static boolean isBoxing(AbstractInsnNode instruction) {
        if (instruction.getOpcode() != Opcodes.INVOKESTATIC) {
            return false;
        }
        MethodInsnNode call = (MethodInsnNode) instruction;
        return call.name.equals("valueOf") && call.desc.matches("\\([ISBCZJ]\\).*")
            && call.owner.matches("java/lang/(Integer|Long|Short|Byte|Character|Boolean)");
    }

    private static AbstractInsnNode only(Set<AbstractInsnNode> producers) {
        return producers.size() == 1 ? producers.iterator().next() : null;
    }

    private boolean add(AbstractInsnNode instruction) {
        pushed.add(copy(instruction));
        return true;
    }

    private static AbstractInsnNode copy(AbstractInsnNode instruction) {
        return instruction.clone(null);
    }

    private static boolean isConstant(AbstractInsnNode instruction) {
        int opcode = instruction.getOpcode();
        boolean isFloat = opcode >= Opcodes.FCONST_0 && opcode <= Opcodes.DCONST_1;
        boolean isNumber = opcode >= Opcodes.ICONST_M1 && opcode <= Opcodes.SIPUSH && !isFloat;
        return isNumber || opcode == Opcodes.GETSTATIC || instruction instanceof LdcInsnNode;
    }

    /** Returns how many operands an instruction without effect has, or -1 for other ones. */
    private static int operands(AbstractInsnNode instruction) {
        if (isBoxing(instruction)) {
            return 1;
        }
        switch (instruction.getOpcode()) {
            case Opcodes.GETFIELD:
            case Opcodes.ARRAYLENGTH:
            case Opcodes.INEG:
            case Opcodes.I2L:
            case Opcodes.I2B:
            case Opcodes.I2C:
            case Opcodes.I2S: return 1;
            case Opcodes.IADD:
            case Opcodes.ISUB:
            case Opcodes.IMUL:
            case Opcodes.IDIV:
            case Opcodes.IREM:
            case Opcodes.ISHL:
            case Opcodes.ISHR:
            case Opcodes.IUSHR:
            case Opcodes.IAND:
            case Opcodes.IOR:
            case Opcodes.IXOR:
            case Opcodes.AALOAD: return 2;
            default: return -1;
        }
    }

    private boolean pushOperands(AbstractInsnNode producer, Frame<SourceValue> before, int count) {
        if (count < 0 || isUnsafe(producer, before)) {
            return false;
        }
        for (int depth = count - 1; depth >= 0; depth--) {
            int index = before.getStackSize() - 1 - depth;
            if (!push(before.getStack(index), index)) {
                return false;
            }
        }
        return add(producer);
    }

    /** Returns whether another thread may have changed what the instruction reads from, so that it throws this time. */
    private static boolean isUnsafe(AbstractInsnNode producer, Frame<SourceValue> before) {
        boolean isRead = producer instanceof FieldInsnNode || producer.getOpcode() == Opcodes.ARRAYLENGTH;
        AbstractInsnNode holder = isRead ? only(before.getStack(before.getStackSize() - 1).insns)
            : producer.getOpcode() == Opcodes.AALOAD ? only(before.getStack(before.getStackSize() - 2).insns) : null;
        boolean needsHolder = isRead || producer.getOpcode() == Opcodes.AALOAD;
        return needsHolder && (holder == null || holder.getOpcode() != Opcodes.ALOAD);
    }

    /** Writes the push of a local as it was at its read: it didn't change since, or by one increment. */
    private boolean pushLocal(VarInsnNode read, Frame<SourceValue> before) {
        Set<AbstractInsnNode> then = before.getLocal(read.var).insns;
        Set<AbstractInsnNode> now = frame(at).getLocal(read.var).insns;
        if (then.equals(now)) {
            return add(read);
        }
        AbstractInsnNode change = only(now);
        boolean isIncrement = change instanceof IincInsnNode && frame(change) != null && frame(change).getLocal(read.var).insns.equals(then);
        if (!isIncrement) {
            return false;
        }
        add(read);
        pushed.add(new LdcInsnNode(((IincInsnNode) change).incr));
        pushed.add(new InsnNode(Opcodes.ISUB));
        return true;
    }
}
