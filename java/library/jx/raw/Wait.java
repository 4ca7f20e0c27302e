package jx.raw;

/** The machine's wait and notify, under names that the tool doesn't rewrite. */
public final class Wait {
    private Wait() {
    }

    /** Waits in the object's wait set. */
    public static void on(Object object) throws InterruptedException {
        object.wait();
    }

    /** Wakes one thread of the object's wait set. */
    public static void notifyOne(Object object) {
        object.notify();
    }

    /** Wakes all threads of the object's wait set. */
    public static void notifyEach(Object object) {
        object.notifyAll();
    }

    /** Returns whether the running thread owns the object's monitor. */
    public static boolean holds(Object object) {
        return N.holds(object);
    }
}
