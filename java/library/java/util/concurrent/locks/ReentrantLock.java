package java.util.concurrent.locks;

import java.util.concurrent.TimeUnit;

/**
 * A lock that is a monitor of the machine, so that a trace has one acquisition, one release, and nothing of a thread that waits.
 *
 * <p>Who may stop waiting for the lock, by an interrupt or a time, tries the monitor, and waits on a gate beside it until it is freed. The
 * machine may lack the means to try a monitor. A thread then says that it enters before it does, and one that tries asks for the owner
 * and for those who enter: it takes the monitor only if there is nobody. What it asks for can't change meanwhile, since a thread that
 * says that it enters lets it finish first.
 */
public class ReentrantLock implements Lock, java.io.Serializable {
    private final Object monitor = new Object();
    private final Object gate = new Object();
    /** Is owned by a thread that tries the lock. */
    private final Object trial = new Object();
    private final Passage passage = new Passage(this);
    private final boolean fair;
    private boolean isTried;
    private Thread owner;
    private int holds;
    private int atGate;

    public ReentrantLock() {
        this(false);
    }

    public ReentrantLock(boolean fair) {
        this.fair = fair;
    }

    private void own(Thread me) {
        if (holds++ == 0) {
            owner = me;
        }
    }

    @Override
    public void lock() {
        Thread me = Thread.currentThread();
        if (!jx.Parker.needsNotice() || owner == me) {
            jx.Parker.enter(monitor);
            own(me);
            return;
        }
        giveNotice(me);
        jx.Parker.enter(monitor);
        own(me);
        jx.Parker.setEntering(me, null);
    }

    /** Says that a thread enters the monitor, and lets a thread that tries it finish. */
    private void giveNotice(Thread enters) {
        jx.Parker.setEntering(enters, this);
        if (isTried) {
            synchronized (trial) {
                return;
            }
        }
    }

    @Override
    public void unlock() {
        if (!isHeldByCurrentThread()) {
            throw new IllegalMonitorStateException();
        }
        boolean free = --holds == 0;
        if (free) {
            owner = null;
        }
        jx.Parker.exit(monitor);
        if (free) {
            openGate();
        }
    }

    /** Wakes those who wait at the gate; the monitor is free by then. */
    private void openGate() {
        if (atGate > 0) {
            synchronized (gate) {
                jx.Parker.wakeAll(gate);
            }
        }
    }

    @Override
    public boolean tryLock() {
        return attempt();
    }

    private boolean attempt() {
        Thread me = Thread.currentThread();
        if (jx.Parker.canTry()) {
            if (!jx.Parker.tryEnter(monitor)) {
                return false;
            }
            own(me);
            return true;
        }
        if (owner == me) {
            jx.Parker.enter(monitor);
            own(me);
            return true;
        }
        return owner == null && takeIfFree(me);
    }

    /**
     * Takes the monitor where nobody owns or enters it, and returns whether it did. Waits at most until an owner has left. Who enters is
     * asked for first, since a thread that enters is the owner before it no longer says so.
     */
    private boolean takeIfFree(Thread me) {
        synchronized (trial) {
            isTried = true;
            boolean free = !jx.Parker.isEntered(this) && owner == null;
            if (free) {
                jx.Parker.enter(monitor);
                own(me);
            }
            isTried = false;
            return free;
        }
    }

    @Override
    public void lockInterruptibly() throws InterruptedException {
        if (!jx.Parker.parks()) {
            lock();
            return;
        }
        if (Thread.interrupted()) {
            throw new InterruptedException();
        }
        if (!attempt()) {
            waitAtGate(0, false);
        }
    }

    @Override
    public boolean tryLock(long time, TimeUnit unit) throws InterruptedException {
        if (Thread.interrupted()) {
            throw new InterruptedException();
        }
        return attempt() || waitAtGate(unit.toNanos(time), true);
    }

    /** Tries the lock whenever it was freed, until it is taken or the time is over; returns whether it is taken. */
    private boolean waitAtGate(long nanos, boolean timed) throws InterruptedException {
        long left = nanos;
        synchronized (gate) {
            atGate++;
            try {
                while (!attempt()) {
                    if (!timed) {
                        jx.Parker.await(gate);
                    } else if (left > 0) {
                        left = jx.Parker.await(gate, left);
                    } else {
                        return false;
                    }
                }
                return true;
            } finally {
                atGate--;
            }
        }
    }

    public boolean isLocked() {
        return owner != null;
    }

    public boolean isHeldByCurrentThread() {
        return jx.Parker.holds(monitor);
    }

    public int getHoldCount() {
        return isHeldByCurrentThread() ? holds : 0;
    }

    public final boolean isFair() {
        return fair;
    }

    protected Thread getOwner() {
        return owner;
    }

    /** Returns whether a thread waits that may stop waiting; others aren't seen. */
    public final boolean hasQueuedThreads() {
        return atGate > 0;
    }

    public final int getQueueLength() {
        return atGate;
    }

    public boolean hasWaiters(Condition condition) {
        return ((Waiters) condition).first != null;
    }

    public int getWaitQueueLength(Condition condition) {
        return ((Waiters) condition).count();
    }

    @Override
    public Condition newCondition() {
        return new Waiters(this);
    }

    @Override
    public String toString() {
        Thread now = owner;
        return super.toString() + (now == null ? "[Unlocked]" : "[Locked by thread " + now.getName() + "]");
    }

    /** A condition of the lock: those who wait for it in the order of their arrival. */
    private static final class Waiters implements Condition {
        private final ReentrantLock lock;
        private Waiter first;
        private Waiter last;

        /** One who waits. */
        private static final class Waiter {
            final Thread thread;
            boolean signalled;
            Waiter next;

            Waiter(Thread thread) {
                this.thread = thread;
            }
        }

        Waiters(ReentrantLock lock) {
            this.lock = lock;
        }

        int count() {
            int n = 0;
            for (Waiter w = first; w != null; w = w.next) {
                n++;
            }
            return n;
        }

        private void checkOwner() {
            if (!lock.isHeldByCurrentThread()) {
                throw new IllegalMonitorStateException();
            }
        }

        private Waiter join(Thread thread) {
            Waiter w = new Waiter(thread);
            if (last == null) {
                first = w;
            } else {
                last.next = w;
            }
            last = w;
            return w;
        }

        private void leave(Waiter gone) {
            Waiter before = null;
            for (Waiter w = first; w != gone; w = w.next) {
                before = w;
            }
            if (before == null) {
                first = gone.next;
            } else {
                before.next = gone.next;
            }
            if (last == gone) {
                last = before;
            }
        }

        /** Waits for a signal; returns the nanoseconds that are left. */
        private long await(long nanos, boolean timed) throws InterruptedException {
            checkOwner();
            if (Thread.interrupted()) {
                throw new InterruptedException();
            }
            Thread owner = lock.owner;
            Waiter w = join(owner);
            int holds = lock.holds;
            long left = nanos;
            try {
                while (!w.signalled && (!timed || left > 0)) {
                    lock.holds = 0;
                    lock.owner = null;
                    left = wait(left, timed);
                }
            } finally {
                lock.holds = holds;
                lock.owner = owner;
                if (jx.Parker.needsNotice()) {
                    jx.Parker.setEntering(owner, null);
                }
                if (!w.signalled) {
                    leave(w);
                }
            }
            return left;
        }

        private long wait(long left, boolean timed) throws InterruptedException {
            if (timed) {
                return jx.Parker.await(lock.monitor, left, lock.passage);
            }
            jx.Parker.await(lock.monitor, lock.passage);
            return 0;
        }

        @Override
        public void await() throws InterruptedException {
            await(0, false);
        }

        @Override
        public long awaitNanos(long nanos) throws InterruptedException {
            return await(nanos, true);
        }

        @Override
        public boolean await(long time, TimeUnit unit) throws InterruptedException {
            return await(unit.toNanos(time), true) > 0;
        }

        @Override
        public boolean awaitUntil(java.util.Date deadline) throws InterruptedException {
            return await((deadline.getTime() - System.currentTimeMillis()) * 1000000L, true) > 0;
        }

        @Override
        public void awaitUninterruptibly() {
            boolean interrupted = Thread.interrupted();
            boolean signalled = false;
            while (!signalled) {
                try {
                    await(0, false);
                    signalled = true;
                } catch (InterruptedException e) {
                    interrupted = true;
                }
            }
            if (interrupted) {
                Thread.currentThread().interrupt();
            }
        }

        private void signalFirst() {
            first.signalled = true;
            if (jx.Parker.needsNotice()) {
                jx.Parker.setEntering(first.thread, lock);
            }
            first = first.next;
            if (first == null) {
                last = null;
            }
        }

        @Override
        public void signal() {
            checkOwner();
            if (first != null) {
                signalFirst();
                jx.Parker.wakeAll(lock.monitor);
            }
        }

        @Override
        public void signalAll() {
            checkOwner();
            if (first != null) {
                while (first != null) {
                    signalFirst();
                }
                jx.Parker.wakeAll(lock.monitor);
            }
        }
    }

    /** What comes before and after a wait of an owner. */
    private static final class Passage extends jx.Passage {
        private final ReentrantLock lock;

        Passage(ReentrantLock lock) {
            this.lock = lock;
        }

        @Override
        public void left() {
            lock.openGate();
        }

        @Override
        public void returns() {
            if (jx.Parker.needsNotice()) {
                lock.giveNotice(Thread.currentThread());
            }
        }
    }
}
