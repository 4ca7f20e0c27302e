package jx;

/**
 * How threads wait and are woken.
 *
 * <p>A program that neither waits for a time, nor interrupts, nor has daemons waits by the machine's own wait and notify. In any other,
 * a waiting thread frees the object's monitor, is blocked on an object of its own, and takes the monitor again when it is woken; so a
 * notification, the clock and an interrupt can each choose which thread to wake.
 */
final class Parking {
    private static final int NOTIFIED = 1, EXPIRED = 2, INTERRUPTED = 3, HALTED = 4;
    /** How many rounds without a change mean that nothing changes. */
    private static final int PATIENCE = 2000;
    /** As many where the schedule stays with a thread while it can go on: all others go on in each round until they can't. */
    private static final int SHORT_PATIENCE = 3;

    /** The threads that wait, in the order of their arrival. */
    private static Thr[] waiting = new Thr[8];
    private static int count;
    private static boolean halting;

    private Parking() {
    }

    /** Is Object.wait, for at most so many nanoseconds, 0 for no end. */
    static void await(Object o, long nanos) throws InterruptedException {
        await(o, nanos, null);
    }

    /** Waits so, and calls the passage, if there is one, where the monitor is free. */
    static void await(Object o, long nanos, Passage passage) throws InterruptedException {
        if (!jx.gen.Settings.parks()) {
            jx.raw.Wait.on(o);
            return;
        }
        if (!jx.raw.Wait.holds(o)) {
            throw new IllegalMonitorStateException("current thread is not owner");
        }
        Thr me = Thr.current();
        if (!register(me, o, nanos == 0 ? Clock.FOREVER : Clock.after(nanos), true)) {
            throw new InterruptedException();
        }
        int holds = release(o);
        if (passage != null) {
            passage.left();
        }
        block(me);
        if (passage != null) {
            passage.returns();
        }
        while (holds-- > 0) {
            jx.raw.Mon.enter(o);
        }
        check(me, null);
    }

    /** Is Object.notify and notifyAll. */
    static void wake(Object o, boolean all) {
        if (!jx.gen.Settings.parks()) {
            if (all) {
                jx.raw.Wait.notifyEach(o);
            } else {
                jx.raw.Wait.notifyOne(o);
            }
            return;
        }
        if (!jx.raw.Wait.holds(o)) {
            throw new IllegalMonitorStateException("current thread is not owner");
        }
        wakeWaiting(o, all);
    }

    /** Wakes one thread that waits for the object, or all, in the order of their arrival. */
    static void wakeWaiting(Object o, boolean all) {
        synchronized (Clock.GUARD) {
            for (int i = 0; i < count; i++) {
                if (waiting[i].waitingOn == o) {
                    wake(waiting[i--], NOTIFIED);
                    if (!all) {
                        return;
                    }
                }
            }
        }
    }

    /** Waits for a time, without a monitor. */
    static void sleep(long nanos) throws InterruptedException {
        Thr me = Thr.current();
        if (!register(me, me.parker, Clock.after(nanos), true)) {
            throw new InterruptedException("sleep interrupted");
        }
        block(me);
        check(me, "sleep interrupted");
    }

    /** Waits until the thread has ended, for at most so many nanoseconds, 0 for no end. */
    static void join(Thr thread, long nanos) throws InterruptedException {
        Thr me = Thr.current();
        long deadline = nanos == 0 ? Clock.FOREVER : Clock.after(nanos);
        do {
            synchronized (Clock.GUARD) {
                if (!thread.isAlive() && !me.interrupted) {
                    return;
                }
                if (!register(me, thread, deadline, true)) {
                    throw new InterruptedException();
                }
            }
            block(me);
            check(me, null);
        } while (me.cause != EXPIRED);
    }

    /** Is LockSupport.park: takes the permit, or waits for it, for an interrupt or for the deadline. */
    static void park(long deadline) {
        Thr me = Thr.current();
        if (!jx.gen.Settings.parks()) {
            parkByMachine(me);
            return;
        }
        synchronized (Clock.GUARD) {
            if (me.permit) {
                me.permit = false;
                return;
            }
            if (!register(me, me.permitted, deadline, false)) {
                return;
            }
        }
        block(me);
        if (me.cause == HALTED) {
            throw new Halt();
        }
    }

    private static void parkByMachine(Thr me) {
        synchronized (me.parker) {
            while (!me.permit) {
                try {
                    jx.raw.Wait.on(me.parker);
                } catch (InterruptedException e) {
                    return;
                }
            }
            me.permit = false;
        }
    }

    /** Is LockSupport.unpark. */
    static void unpark(Thr thread) {
        if (!jx.gen.Settings.parks()) {
            synchronized (thread.parker) {
                thread.permit = true;
                jx.raw.Wait.notifyEach(thread.parker);
            }
            return;
        }
        synchronized (Clock.GUARD) {
            if (thread.waitingOn == thread.permitted && thread.waitingOn != null) {
                wake(thread, NOTIFIED);
            } else {
                thread.permit = true;
            }
        }
    }

    /** Sets the thread's interrupt, and wakes it from a wait. */
    static void interrupt(Thr thread) {
        synchronized (Clock.GUARD) {
            thread.interrupted = true;
            if (thread.waitingOn != null) {
                wake(thread, INTERRUPTED);
            }
        }
    }

    /** Wakes a thread whose deadline has come. The guard is held. */
    static void expire(Thr thread) {
        wake(thread, EXPIRED);
    }

    /** Ends what waits, now and later: only daemons are left, or the program has called exit. */
    static void halt() {
        synchronized (Clock.GUARD) {
            halting = true;
            while (count > 0) {
                wake(waiting[0], HALTED);
            }
        }
    }

    static boolean isHalting() {
        return halting;
    }

    /** Enters the thread among the waiting ones; returns false where it is interrupted. */
    private static boolean register(Thr me, Object o, long deadline, boolean clears) {
        synchronized (Clock.GUARD) {
            if (halting) {
                throw new Halt();
            }
            if (me.interrupted) {
                me.interrupted = !clears;
                return false;
            }
            me.waitingOn = o;
            me.cause = 0;
            if (count == waiting.length) {
                grow();
            }
            waiting[count++] = me;
            Clock.blocked(me, deadline);
            return true;
        }
    }

    private static void grow() {
        Thr[] more = new Thr[2 * count];
        for (int i = 0; i < count; i++) {
            more[i] = waiting[i];
        }
        waiting = more;
    }

    /** Frees the object's monitor wholly, and returns how often it was held. */
    private static int release(Object o) {
        int holds = 0;
        while (jx.raw.Wait.holds(o)) {
            jx.raw.Mon.exit(o);
            holds++;
        }
        return holds;
    }

    private static void block(Thr me) {
        boolean looks = jx.gen.Settings.hasUnseenThreads() && me.deadline != Clock.FOREVER;
        while (me.cause == 0) {
            if (looks && Clock.isNext(me)) {
                lookAfter(me);
            } else {
                waitForChange(me, looks);
            }
        }
    }

    /** Waits until the thread is woken, or is the next that waits for a time, where it has to look after the clock then. */
    private static void waitForChange(Thr me, boolean looks) {
        synchronized (me.parker) {
            while (me.cause == 0 && !(looks && Clock.isNext(me))) {
                try {
                    jx.raw.Wait.on(me.parker);
                } catch (InterruptedException never) {
                    return;
                }
            }
        }
    }

    /**
     * Looks after the clock while the thread is the next that waits for a time: threads that are blocked by monitors, or that loop, count
     * as running. Where nothing changes for long, the clock goes on.
     */
    private static void lookAfter(Thr me) {
        int patience = jx.gen.Settings.stays() ? SHORT_PATIENCE : PATIENCE;
        int rounds = 0;
        int seen = Clock.changes;
        while (me.cause == 0 && Clock.isNext(me)) {
            Yielding.yield();
            if (seen != Clock.changes) {
                seen = Clock.changes;
                rounds = 0;
            } else if (++rounds >= patience) {
                rounds = 0;
                Clock.force();
            }
        }
    }

    /** Has a thread look after the clock from now on. The guard is held. */
    static void callNext(Thr thread) {
        synchronized (thread.parker) {
            jx.raw.Wait.notifyEach(thread.parker);
        }
    }

    private static void wake(Thr thread, int cause) {
        int at = 0;
        while (waiting[at] != thread) {
            at++;
        }
        count--;
        for (int i = at; i < count; i++) {
            waiting[i] = waiting[i + 1];
        }
        waiting[count] = null;
        thread.waitingOn = null;
        Clock.unblocked(thread);
        synchronized (thread.parker) {
            thread.cause = cause;
            jx.raw.Wait.notifyEach(thread.parker);
        }
    }

    /** Throws what the woken thread was woken for. */
    private static void check(Thr me, String message) throws InterruptedException {
        if (me.cause == HALTED) {
            throw new Halt();
        }
        if (me.cause == INTERRUPTED) {
            me.interrupted = false;
            throw new InterruptedException(message);
        }
    }
}
