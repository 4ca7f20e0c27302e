package jvmx.tool;

import java.util.ArrayDeque;
import java.util.Deque;
import java.util.HashSet;
import java.util.Set;
import org.objectweb.asm.Opcodes;
import org.objectweb.asm.tree.AbstractInsnNode;
import org.objectweb.asm.tree.InsnNode;
import org.objectweb.asm.tree.JumpInsnNode;
import org.objectweb.asm.tree.MethodInsnNode;
import org.objectweb.asm.tree.MethodNode;
import org.objectweb.asm.tree.TryCatchBlockNode;

/**
 * Makes the JDK's streams sequential: where their own code asks whether a stream is parallel, the answer is no, and
 * what only a parallel stream runs is left out. So programs that use streams don't bring a pool of threads with them.
 */
final class SequentialStreams {
    private static final String PACKAGE = "java/util/stream/";

    private SequentialStreams() { }

    /** Changes a method of the JDK's streams; others stay. */
    static void simplify(ProgramMethod method, MethodNode body) {
        if (!method.owner.name().startsWith(PACKAGE) || method.owner.origin == Origin.USER) {
            return;
        }
        boolean isChanged = false;
        for (AbstractInsnNode instruction : body.instructions.toArray()) {
            if (isQuestion(instruction) && instruction.getNext() instanceof JumpInsnNode) {
                answer(body, (MethodInsnNode) instruction, (JumpInsnNode) instruction.getNext());
                isChanged = true;
            }
        }
        if (isChanged) {
            removeUnreachable(body);
        }
    }

    private static boolean isQuestion(AbstractInsnNode instruction) {
        return instruction instanceof MethodInsnNode && ((MethodInsnNode) instruction).name.equals("isParallel")
            && ((MethodInsnNode) instruction).desc.equals("()Z");
    }

    /** Replaces the question and the jump after it by the way that a sequential stream takes. */
    private static void answer(MethodNode body, MethodInsnNode question, JumpInsnNode jump) {
        body.instructions.set(question, new InsnNode(Opcodes.POP));
        if (jump.getOpcode() == Opcodes.IFEQ) {
            jump.setOpcode(Opcodes.GOTO);
        } else {
            body.instructions.set(jump, new InsnNode(Opcodes.NOP));
        }
    }

    private static void removeUnreachable(MethodNode body) {
        Set<AbstractInsnNode> reached = reached(body);
        for (AbstractInsnNode instruction : body.instructions.toArray()) {
            if (instruction.getOpcode() >= 0 && !reached.contains(instruction)) {
                body.instructions.remove(instruction);
            }
        }
        body.tryCatchBlocks.removeIf(block -> isEmpty(block));
    }

    private static boolean isEmpty(TryCatchBlockNode block) {
        for (AbstractInsnNode at = block.start; at != null && at != block.end; at = at.getNext()) {
            if (at.getOpcode() >= 0) {
                return false;
            }
        }
        return true;
    }

    private static Set<AbstractInsnNode> reached(MethodNode body) {
        Set<AbstractInsnNode> reached = new HashSet<>();
        Deque<AbstractInsnNode> work = new ArrayDeque<>();
        work.add(body.instructions.getFirst());
        while (!work.isEmpty()) {
            AbstractInsnNode at = work.poll();
            while (at != null && reached.add(at)) {
                work.addAll(Flow.targets(at));
                addHandlers(work, body, at);
                at = Flow.endsPath(at.getOpcode()) ? null : at.getNext();
            }
        }
        return reached;
    }

    /** Adds the handlers of ranges that begin here. A range that is entered in its middle can't be by Java's compiler. */
    private static void addHandlers(Deque<AbstractInsnNode> work, MethodNode body, AbstractInsnNode at) {
        for (TryCatchBlockNode block : body.tryCatchBlocks) {
            if (block.start == at) {
                work.add(block.handler);
            }
        }
    }
}
