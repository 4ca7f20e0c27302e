package jvmx.tool;

import java.util.ArrayList;
import java.util.Collection;
import java.util.List;
import org.objectweb.asm.tree.AbstractInsnNode;
import org.objectweb.asm.tree.MethodInsnNode;

/**
 * Finds whether the caller's code waits for times, interrupts or ends the program. The library is simpler where it doesn't. To answer
 * yes is always right.
 */
final class TimedCalls {
    private static final String TIMED_NAMES = "sleep|interrupt|interrupted|isInterrupted|setDaemon|exit|halt|park.*"
        + "|unpark|schedule.*|cancel|shutdownNow|parallel|parallelStream|orTimeout|completeOnTimeout|addShutdownHook|awaitNanos|awaitUntil|timedJoin";
    private static final String TIMED_CLASSES = "java/util/concurrent/(ForkJoin.*|Recursive.*|CompletableFuture"
        + "|CountedCompleter|Phaser|Exchanger|StampedLock|Scheduled.*|SynchronousQueue|.*Transfer.*|DelayQueue|Flow.*|Submission.*)|java/util/Timer.*"
        + "|java/util/concurrent/locks/(StampedLock|LockSupport|Abstract.*)";
    private static final String TIMED_FACTORIES = "newCachedThreadPool|newScheduled.*|newWorkStealing.*|newSingleThreadScheduled.*";

    private final List<ProgramMethod> all = new ArrayList<>();
    /** Those of the caller's classes. */
    private final List<ProgramMethod> reached = new ArrayList<>();
    /** Whether the JDK's code interrupts threads, as a pool does that is shut down. */
    private boolean isInterrupting;

    TimedCalls(Collection<ProgramClass> classes) {
        for (ProgramClass found : classes) {
            for (ProgramMethod method : found.methods.values()) {
                isInterrupting |= found.origin == Origin.JDK && method.isReached && interrupts(method);
                if (method.isReached && method.adapted != null) {
                    add(method);
                }
            }
        }
    }

    private void add(ProgramMethod method) {
        all.add(method);
        if (method.owner.isUser()) {
            reached.add(method);
        }
    }

    /** Returns whether the caller's code waits for a time, interrupts, has daemons, or ends the program. */
    boolean isAny() {
        return isInterrupting || reached.stream().anyMatch(this::isTimed);
    }

    /** Returns whether a method interrupts another thread: an interrupt of oneself only passes one on. */
    private static boolean interrupts(ProgramMethod method) {
        for (AbstractInsnNode instruction : method.adapted.instructions) {
            MethodInsnNode call = instruction instanceof MethodInsnNode ? (MethodInsnNode) instruction : null;
            boolean isInterrupt = call != null && call.name.equals("interrupt") && call.desc.equals("()V");
            AbstractInsnNode before = isInterrupt ? call.getPrevious() : null;
            boolean isOwn = before instanceof MethodInsnNode && ((MethodInsnNode) before).name.equals("currentThread");
            if (isInterrupt && !isOwn) {
                return true;
            }
        }
        return false;
    }

    /** Returns whether threads may be blocked or loop where the library doesn't see it, so that the clock has to be looked after. */
    boolean isAnyUnseen(World world) {
        WaitsOfOwners waits = new WaitsOfOwners(world, all);
        return waits.isAny() || new SpinLoops(world, waits).isAny(reached);
    }

    private boolean isTimed(ProgramMethod method) {
        for (AbstractInsnNode instruction : method.adapted.instructions) {
            if (instruction instanceof MethodInsnNode && isTimed((MethodInsnNode) instruction)) {
                return true;
            }
        }
        return false;
    }

    private static boolean isTimed(MethodInsnNode call) {
        return call.desc.contains("Ljava/util/concurrent/TimeUnit;") || call.owner.matches(TIMED_CLASSES)
            || call.name.matches(TIMED_NAMES) || call.owner.endsWith("/Executors") && call.name.matches(TIMED_FACTORIES)
            || call.name.equals("await") && call.desc.startsWith("(Ljava/lang/Object;J")
            || call.name.equals("join") && call.desc.startsWith("(J");
    }
}
