package jvmx.tool;

import java.util.ArrayDeque;
import java.util.Deque;
import java.util.IdentityHashMap;
import java.util.Map;
import org.objectweb.asm.Opcodes;
import org.objectweb.asm.tree.AbstractInsnNode;
import org.objectweb.asm.tree.MethodInsnNode;
import org.objectweb.asm.tree.MethodNode;
import org.objectweb.asm.tree.TryCatchBlockNode;

/** Finds how many monitors and locks a method may own before each of its instructions, beside those of its callers. */
final class MonitorDepths {
    /** More isn't told apart, so that a loop which only takes locks ends. */
    private static final int MOST = 4;

    /** The types by which a lock is named that is a monitor. */
    private static final String LOCKS = "java/util/concurrent/(locks/(Lock|ReentrantLock)|ConcurrentHashMap)";

    private final Map<AbstractInsnNode, Integer> depths = new IdentityHashMap<>();
    private final Deque<AbstractInsnNode> work = new ArrayDeque<>();
    private final MethodNode method;

    private MonitorDepths(MethodNode method) {
        this.method = method;
    }

    /** Returns the depth before each instruction that can be reached. */
    static Map<AbstractInsnNode, Integer> of(MethodNode method) {
        MonitorDepths found = new MonitorDepths(method);
        if (method.instructions.getFirst() != null) {
            found.enter(method.instructions.getFirst(), 0);
            found.follow();
        }
        return found.depths;
    }

    private void enter(AbstractInsnNode instruction, int depth) {
        if (depth > depths.getOrDefault(instruction, -1)) {
            depths.put(instruction, depth);
            work.add(instruction);
        }
    }

    private void follow() {
        while (!work.isEmpty()) {
            AbstractInsnNode at = work.poll();
            int before = depths.get(at);
            int after = Math.max(0, Math.min(MOST, before + change(at)));
            for (AbstractInsnNode target : Flow.targets(at)) {
                enter(target, after);
            }
            for (TryCatchBlockNode block : method.tryCatchBlocks) {
                if (block.start == at) {
                    enter(block.handler, before);
                }
            }
            if (!Flow.endsPath(at.getOpcode()) && at.getNext() != null) {
                enter(at.getNext(), after);
            }
        }
    }

    private static int change(AbstractInsnNode instruction) {
        if (instruction.getOpcode() == Opcodes.MONITORENTER) {
            return 1;
        }
        if (instruction.getOpcode() == Opcodes.MONITOREXIT) {
            return -1;
        }
        return instruction instanceof MethodInsnNode ? change((MethodInsnNode) instruction) : 0;
    }

    private static int change(MethodInsnNode call) {
        if (!call.owner.matches(LOCKS)) {
            return 0;
        }
        return call.name.matches("lock|lockInterruptibly|tryLock|lockToCompute") ? 1 : call.name.matches("unlock|unlockComputed") ? -1 : 0;
    }
}
