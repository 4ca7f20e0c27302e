package jx.raw;

/** What the machine knows and Java can't say. Each has a body in Java, which runs where the machine lacks the native. */
public final class N {
    private N() {
    }

    /** Returns the running thread's Thread object, null for thread 0, or this class where that isn't known. */
    public static Object current() {
        return N.class;
    }

    /** Returns whether the running thread owns the object's monitor. */
    public static boolean holds(Object object) {
        try {
            object.notify();
            return true;
        } catch (IllegalMonitorStateException e) {
            return false;
        }
    }

    /** Returns a number that stays the object's, or 0 where the machine has none. */
    public static int id(Object object) {
        return 0;
    }

    /** Returns whether {@link #tryEnter} is there. */
    public static boolean canTry() {
        return false;
    }

    /** Enters the monitor where that doesn't block, and returns whether it did. */
    public static boolean tryEnter(Object object) {
        throw new IllegalStateException();
    }
}
