package jvmx.tool;

import org.objectweb.asm.Opcodes;
import org.objectweb.asm.tree.ClassNode;
import org.objectweb.asm.tree.MethodNode;

/** Makes the class by which the library learns what the tool knows of the program. */
final class SettingsClass {
    static final String NAME = "jx/gen/Settings";
    private static final String LOCK = "java/util/concurrent/locks/ReentrantLock";

    private SettingsClass() { }

    /** Returns the class, with one method for each fact. */
    static ClassNode of(Settings settings, TimedCalls timed, World world) {
        ClassNode made = new ClassNode();
        made.visit(Opcodes.V1_5, Opcodes.ACC_PUBLIC | Opcodes.ACC_FINAL | Opcodes.ACC_SUPER, NAME, null, BuiltIns.OBJECT, null);
        made.methods.add(constant("assertions", settings.hasAssertions));
        made.methods.add(constant("parks", timed.isAny()));
        made.methods.add(constant("hasUnseenThreads", timed.isAny() && timed.isAnyUnseen(world)));
        made.methods.add(constant("triesLocks", triesLocks(timed, world)));
        made.methods.add(constant("stays", settings.isStaying));
        return made;
    }

    /** Returns whether the program can reach a method that tries a lock. Waiting for a lock is to try it where the wait may end early. */
    private static boolean triesLocks(TimedCalls timed, World world) {
        return isReached(world, "tryLock()Z") || isReached(world, "tryLock(JLjava/util/concurrent/TimeUnit;)Z")
            || timed.isAny() && isReached(world, "lockInterruptibly()V");
    }

    private static boolean isReached(World world, String key) {
        ProgramMethod found = world.resolve(LOCK, key);
        return found != null && found.isReached;
    }

    private static MethodNode constant(String name, boolean value) {
        MethodNode made = new MethodNode(Opcodes.ACC_PUBLIC | Opcodes.ACC_STATIC, name, "()Z", null, null);
        Code.push(made, value ? 1 : 0);
        made.visitInsn(Opcodes.IRETURN);
        return made;
    }
}
