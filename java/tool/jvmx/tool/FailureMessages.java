package jvmx.tool;

import java.util.ArrayList;
import java.util.List;
import java.util.Map;
import org.objectweb.asm.Opcodes;
import org.objectweb.asm.Type;
import org.objectweb.asm.tree.AbstractInsnNode;
import org.objectweb.asm.tree.InsnList;
import org.objectweb.asm.tree.InsnNode;
import org.objectweb.asm.tree.LabelNode;
import org.objectweb.asm.tree.LdcInsnNode;
import org.objectweb.asm.tree.LineNumberNode;
import org.objectweb.asm.tree.MethodInsnNode;
import org.objectweb.asm.tree.MethodNode;
import org.objectweb.asm.tree.TryCatchBlockNode;
import org.objectweb.asm.tree.TypeInsnNode;
import org.objectweb.asm.tree.analysis.Frame;
import org.objectweb.asm.tree.analysis.SourceValue;

/**
 * Gives the exceptions of the machine's instructions the messages that Java's have: an index and a length, a class. After
 * the end of a method it adds a handler for each such instruction, which throws the library's exception in place of the
 * machine's. It does so where the operands can be had again, and leaves the method as it is elsewhere.
 */
final class FailureMessages {
    private static final String FAILURES = "jx/Failures";
    private static final String PREFIX = "java/lang/";

    private final MethodNode method;
    private final Map<AbstractInsnNode, Frame<SourceValue>> frames;
    private final List<TryCatchBlockNode> first = new ArrayList<>();
    private final List<TryCatchBlockNode> last = new ArrayList<>();
    private final InsnList handlers = new InsnList();

    private FailureMessages(MethodNode method, Map<AbstractInsnNode, Frame<SourceValue>> frames) {
        this.method = method;
        this.frames = frames;
    }

    /** Adds the handlers to an adapted method of the caller. */
    static void add(ProgramMethod method) {
        boolean hasOne = false;
        for (AbstractInsnNode instruction : method.adapted.instructions) {
            hasOne |= exceptionOf(instruction) != null;
        }
        Map<AbstractInsnNode, Frame<SourceValue>> frames = hasOne ? Reevaluation.frames(method.owner.name(), method.adapted) : null;
        if (frames != null) {
            new FailureMessages(method.adapted, frames).addAll();
        }
    }

    /** Returns the keys of the library's methods that the handlers call. */
    static String[] keys() {
        return new String[] {
            "index(Ljava/lang/Object;I)Ljava/lang/Throwable;", "size(I)Ljava/lang/Throwable;",
            "store(Ljava/lang/Object;)Ljava/lang/Throwable;", "cast(Ljava/lang/Object;Ljava/lang/Class;)Ljava/lang/Throwable;"
        };
    }

    static String owner() {
        return FAILURES;
    }

    private static String exceptionOf(AbstractInsnNode instruction) {
        int opcode = instruction.getOpcode();
        if (opcode >= Opcodes.IALOAD && opcode <= Opcodes.SALOAD || opcode >= Opcodes.IASTORE && opcode <= Opcodes.SASTORE) {
            return PREFIX + "ArrayIndexOutOfBoundsException";
        }
        switch (opcode) {
            case Opcodes.NEWARRAY:
            case Opcodes.ANEWARRAY: return PREFIX + "NegativeArraySizeException";
            case Opcodes.CHECKCAST: return PREFIX + "ClassCastException";
            default: return null;
        }
    }

    private void addAll() {
        for (AbstractInsnNode instruction : method.instructions.toArray()) {
            String exception = exceptionOf(instruction);
            if (exception != null) {
                addHandler(instruction, exception, messageOf(instruction));
            }
            if (instruction.getOpcode() == Opcodes.AASTORE) {
                InsnList value = operand(instruction, 0);
                addHandler(instruction, PREFIX + "ArrayStoreException", value == null ? null : call(value, "store(Ljava/lang/Object;)"));
            }
        }
        method.instructions.add(handlers);
        method.tryCatchBlocks.addAll(0, first);
        method.tryCatchBlocks.addAll(last);
    }

    private InsnList operand(AbstractInsnNode instruction, int depth) {
        return Reevaluation.operand(frames, instruction, depth);
    }

    /** Returns instructions that push the exception with its message, or null if an operand can't be had again. */
    private InsnList messageOf(AbstractInsnNode instruction) {
        int opcode = instruction.getOpcode();
        if (opcode == Opcodes.NEWARRAY || opcode == Opcodes.ANEWARRAY) {
            InsnList size = operand(instruction, 0);
            return size == null ? null : call(size, "size(I)");
        }
        if (opcode == Opcodes.CHECKCAST) {
            InsnList object = operand(instruction, 0);
            if (object == null) {
                return null;
            }
            object.add(new LdcInsnNode(Type.getObjectType(((TypeInsnNode) instruction).desc)));
            return call(object, "cast(Ljava/lang/Object;Ljava/lang/Class;)");
        }
        int values = opcode >= Opcodes.IASTORE ? 1 : 0;
        InsnList array = operand(instruction, values + 1);
        InsnList index = operand(instruction, values);
        if (array == null || index == null) {
            return null;
        }
        array.add(index);
        return call(array, "index(Ljava/lang/Object;I)");
    }

    private static InsnList call(InsnList operands, String key) {
        int parameters = key.indexOf('(');
        operands.add(new MethodInsnNode(Opcodes.INVOKESTATIC, FAILURES, key.substring(0, parameters),
            key.substring(parameters) + "Ljava/lang/Throwable;", false));
        return operands;
    }

    private void addHandler(AbstractInsnNode instruction, String exception, InsnList message) {
        if (message == null) {
            return;
        }
        LabelNode begin = new LabelNode();
        LabelNode end = new LabelNode();
        LabelNode handler = new LabelNode();
        LabelNode handlerEnd = new LabelNode();
        List<TryCatchBlockNode> covering = covering(instruction);
        handlers.add(handler);
        int line = Code.lineOf(instruction);
        if (line > 0) {
            handlers.add(new LineNumberNode(line, handler));
        }
        handlers.add(new InsnNode(Opcodes.POP));
        handlers.add(message);
        handlers.add(new InsnNode(Opcodes.ATHROW));
        handlers.add(handlerEnd);
        method.instructions.insertBefore(instruction, begin);
        method.instructions.insert(instruction, end);
        first.add(new TryCatchBlockNode(begin, end, handler, exception));
        for (TryCatchBlockNode block : covering) {
            last.add(new TryCatchBlockNode(handler, handlerEnd, block.handler, block.type));
        }
    }

    /** Returns the caller's blocks that cover an instruction: they have to cover its handler too. */
    private List<TryCatchBlockNode> covering(AbstractInsnNode instruction) {
        List<TryCatchBlockNode> covering = new ArrayList<>();
        int at = method.instructions.indexOf(instruction);
        for (TryCatchBlockNode block : method.tryCatchBlocks) {
            if (method.instructions.indexOf(block.start) <= at && at < method.instructions.indexOf(block.end)) {
                covering.add(block);
            }
        }
        return covering;
    }
}
