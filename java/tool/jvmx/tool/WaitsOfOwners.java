package jvmx.tool;

import java.util.ArrayDeque;
import java.util.ArrayList;
import java.util.Collection;
import java.util.Deque;
import java.util.HashMap;
import java.util.HashSet;
import java.util.List;
import java.util.Map;
import java.util.Set;
import org.objectweb.asm.Opcodes;
import org.objectweb.asm.tree.AbstractInsnNode;
import org.objectweb.asm.tree.MethodInsnNode;

/**
 * Finds whether a thread may wait while it owns a monitor, so that others are blocked where the library doesn't see it. To answer yes is
 * always right.
 */
final class WaitsOfOwners {
    /** The methods of the library in which a thread waits. */
    private static final String PARKING = "jx/Parking";
    private static final String PARKING_NAMES = "await|sleep|join|park";
    /** The classes whose methods named await free the only monitor that their callers own. */
    private static final String FREEING = ".*/Condition|jx/Obj|jx/Parker|java/util/concurrent/Semaphore";
    /** Waits for a lock whose owner doesn't wait itself, or is found by its own wait. */
    private static final String ENTRIES = "java/util/concurrent/locks/ReentrantLock.lockInterruptibly()V";

    /** A call, and the method that has it. */
    private static final class Call {
        final ProgramMethod caller;
        final MethodInsnNode instruction;

        Call(ProgramMethod caller, MethodInsnNode instruction) {
            this.caller = caller;
            this.instruction = instruction;
        }
    }

    private final World world;
    private final Collection<ProgramMethod> reached;
    private final Map<String, List<Call>> calls = new HashMap<>();
    private final Set<ProgramMethod> waiting = new HashSet<>();
    private final Map<String, List<ProgramMethod>> waitingByKey = new HashMap<>();
    private final Deque<ProgramMethod> work = new ArrayDeque<>();

    WaitsOfOwners(World world, Collection<ProgramMethod> reached) {
        this.world = world;
        this.reached = reached;
        reached.forEach(this::addCalls);
        reached.stream().filter(WaitsOfOwners::isBase).forEach(this::add);
        while (!work.isEmpty()) {
            addCallers(work.poll());
        }
    }

    private void addCalls(ProgramMethod method) {
        for (AbstractInsnNode instruction : method.adapted.instructions) {
            if (instruction instanceof MethodInsnNode) {
                MethodInsnNode call = (MethodInsnNode) instruction;
                calls.computeIfAbsent(Names.key(call.name, call.desc), key -> new ArrayList<>()).add(new Call(method, call));
            }
        }
    }

    private static boolean isBase(ProgramMethod method) {
        return method.owner.name().equals(PARKING) && method.name.matches(PARKING_NAMES);
    }

    private void add(ProgramMethod method) {
        if (!(method.owner.name() + "." + method.key()).equals(ENTRIES) && waiting.add(method)) {
            waitingByKey.computeIfAbsent(method.key(), key -> new ArrayList<>()).add(method);
            work.add(method);
        }
    }

    private void addCallers(ProgramMethod method) {
        for (Call call : calls.getOrDefault(method.key(), new ArrayList<>())) {
            if (isOf(call.instruction, method)) {
                add(call.caller);
            }
        }
    }

    /** Returns whether a call may be one of this method, which has its name and descriptor. */
    private boolean isOf(MethodInsnNode call, ProgramMethod method) {
        if (call.getOpcode() == Opcodes.INVOKESTATIC || call.getOpcode() == Opcodes.INVOKESPECIAL) {
            return world.resolve(call.owner, method.key()) == method;
        }
        ProgramClass owner = world.find(call.owner);
        return method.owner.ancestors.contains(call.owner) || owner != null && owner.ancestors.contains(method.owner.name());
    }

    /** Returns whether the thread may wait in a call. */
    boolean mayWait(MethodInsnNode call) {
        List<ProgramMethod> methods = waitingByKey.getOrDefault(Names.key(call.name, call.desc), new ArrayList<>());
        return methods.stream().anyMatch(method -> isOf(call, method));
    }

    /** Returns whether a thread may wait as the owner of a monitor, or while it initialises a class. */
    boolean isAny() {
        return reached.stream().anyMatch(method -> method.name.equals("<clinit>") ? waiting.contains(method) : waitsAsOwner(method));
    }

    private boolean waitsAsOwner(ProgramMethod method) {
        if (!waiting.contains(method)) {
            return false;
        }
        int own = method.is(Opcodes.ACC_SYNCHRONIZED) ? 1 : 0;
        Map<AbstractInsnNode, Integer> depths = MonitorDepths.of(method.adapted);
        for (AbstractInsnNode instruction : method.adapted.instructions) {
            int depth = own + depths.getOrDefault(instruction, 0);
            if (depth > 0 && instruction instanceof MethodInsnNode && mayWait((MethodInsnNode) instruction)
                && !(depth == 1 && isOfOwner((MethodInsnNode) instruction))) {
                return true;
            }
        }
        return false;
    }

    /** Returns whether a call is a wait that frees the monitor of its object, or its lock. */
    private static boolean isOfOwner(MethodInsnNode call) {
        return call.name.startsWith("await") && call.owner.matches(FREEING);
    }
}
