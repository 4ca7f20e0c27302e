package jx;

/** What java.util.concurrent asks of {@link Parking}. */
public final class Parker {
    private Parker() {
    }

    public static void park() {
        Parking.park(Clock.FOREVER);
    }

    public static void parkNanos(long nanos) {
        Parking.park(Clock.after(nanos));
    }

    public static void unpark(Object thread) {
        Parking.unpark((Thr) thread);
    }

    /** Waits for the object, whose monitor is held, for at most so many nanoseconds, and returns how many are left. */
    public static long await(Object o, long nanos) throws InterruptedException {
        if (nanos <= 0) {
            return nanos;
        }
        return await(o, nanos, null);
    }

    /** Waits so, and calls the passage on the way. */
    public static long await(Object o, long nanos, Passage passage) throws InterruptedException {
        long deadline = Clock.after(nanos);
        Parking.await(o, nanos, passage);
        return deadline - Clock.look();
    }

    /** Waits for the object, whose monitor is held, until it is woken. */
    public static void await(Object o) throws InterruptedException {
        Parking.await(o, 0, null);
    }

    /** Waits so, and calls the passage on the way. */
    public static void await(Object o, Passage passage) throws InterruptedException {
        Parking.await(o, 0, passage);
    }

    /** Wakes all that wait for the object, whose monitor is held. */
    public static void wakeAll(Object o) {
        Parking.wake(o, true);
    }

    /** Enters the object's monitor. */
    public static void enter(Object o) {
        jx.raw.Mon.enter(o);
    }

    /** Leaves the object's monitor. */
    public static void exit(Object o) {
        jx.raw.Mon.exit(o);
    }

    public static boolean holds(Object o) {
        return jx.raw.N.holds(o);
    }

    public static boolean canTry() {
        return jx.raw.N.canTry();
    }

    public static boolean tryEnter(Object o) {
        return jx.raw.N.tryEnter(o);
    }

    /** Returns whether the program waits for times or interrupts, so that a wait may end otherwise than by a notification. */
    public static boolean parks() {
        return jx.gen.Settings.parks();
    }

    /** Returns whether a thread has to say which lock it enters, since others try locks and the machine can't try a monitor. */
    public static boolean needsNotice() {
        return jx.gen.Settings.triesLocks() && !jx.raw.N.canTry();
    }

    /** Says which lock a thread is about to enter, or that it has. */
    public static void setEntering(Object thread, Object lock) {
        ((Thr) thread).entering = lock;
    }

    /** Returns whether a thread is about to enter the lock. */
    public static boolean isEntered(Object lock) {
        return Thr.isEntered(lock);
    }
}
