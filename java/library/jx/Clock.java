package jx;

/**
 * The virtual clock, and the count of the threads that aren't in a wait of the library.
 *
 * <p>Time stands still while a thread can run. The thread that is the last to wait moves the clock to the earliest time that a thread
 * waits for, and wakes the threads that wait for it. A thread that reads the clock again and again moves it too, a little at first and
 * then more and more, so that a loop which waits for a time ends.
 */
final class Clock {
    static final Object GUARD = new Object();
    static final long FOREVER = Long.MAX_VALUE;
    private static final long EPOCH = 1700000000000L;
    private static final int PATIENCE = 64;

    private static long now = 1000000000L;
    private static int running = 1;
    private static int reads;
    /** How often a thread began or ended to wait. */
    static int changes;
    /** The waiting threads that wait for a time, the earliest first. */
    private static Thr[] sleepers = new Thr[4];
    private static int count;

    private Clock() {
    }

    /** Returns a duration in nanoseconds, at most the largest. */
    static long nanos(long milliseconds) {
        return milliseconds > 9000000000000L ? 9000000000000000000L : milliseconds * 1000000L;
    }

    /** Returns the time, and lets it go on a little. */
    static long read() {
        synchronized (GUARD) {
            int doublings = reads++ / PATIENCE;
            now += 1000L << (doublings > 20 ? 20 : doublings);
            return now;
        }
    }

    /** Returns the time. */
    static long look() {
        synchronized (GUARD) {
            return now;
        }
    }

    /** Returns the time in milliseconds of the calendar. */
    static long readMillis() {
        return EPOCH + read() / 1000000L;
    }

    /** Returns the time that is so many nanoseconds away. */
    static long after(long nanos) {
        synchronized (GUARD) {
            return nanos > FOREVER - now ? FOREVER : now + nanos;
        }
    }

    /** Counts a thread that is about to run. */
    static void started() {
        synchronized (GUARD) {
            running++;
        }
    }

    /** Counts a thread that has ended. */
    static void ended() {
        synchronized (GUARD) {
            running--;
            advance();
        }
    }

    /** Counts a thread that waits until it is woken, at the deadline at the latest. The guard is held. */
    static void blocked(Thr thread, long deadline) {
        reads = 0;
        changes++;
        thread.deadline = deadline;
        if (deadline != FOREVER) {
            insert(thread);
        }
        running--;
        advance();
    }

    /** Counts a woken thread as running again. The guard is held. */
    static void unblocked(Thr thread) {
        reads = 0;
        changes++;
        running++;
        if (thread.deadline != FOREVER) {
            remove(thread);
        }
    }

    /** Lets the clock go to the time, where that is ahead. The guard is held. */
    static void reach(long time) {
        if (time > now) {
            now = time;
        }
    }

    /** Returns whether the thread is the first of those that wait for a time. */
    static boolean isNext(Thr thread) {
        return sleepers[0] == thread;
    }

    /** Goes to the next time that is waited for though threads seem to run: they are taken as blocked by monitors. */
    static void force() {
        synchronized (GUARD) {
            next();
        }
    }

    /** Where no thread runs, goes to the next time that is waited for. The guard is held. */
    private static void advance() {
        if (running == 0) {
            next();
        }
    }

    /** Goes to the next time that is waited for, and wakes whoever waits for it. */
    private static void next() {
        if (count == 0) {
            return;
        }
        reach(sleepers[0].deadline);
        while (count > 0 && sleepers[0].deadline <= now) {
            Parking.expire(sleepers[0]);
        }
    }

    private static void insert(Thr thread) {
        if (count == sleepers.length) {
            Thr[] more = new Thr[2 * count];
            for (int i = 0; i < count; i++) {
                more[i] = sleepers[i];
            }
            sleepers = more;
        }
        int at = count++;
        while (at > 0 && sleepers[at - 1].deadline > thread.deadline) {
            sleepers[at] = sleepers[at - 1];
            at--;
        }
        sleepers[at] = thread;
    }

    private static void remove(Thr thread) {
        int kept = 0;
        for (int i = 0; i < count; i++) {
            if (sleepers[i] != thread) {
                sleepers[kept++] = sleepers[i];
            }
        }
        if (kept < count) {
            sleepers[kept] = null;
        }
        count = kept;
        if (kept > 0 && jx.gen.Settings.hasUnseenThreads()) {
            Parking.callNext(sleepers[0]);
        }
    }
}
