package java.util.concurrent;

/**
 * Permits that threads take and give back. Those who wait are served in the order of their arrival; only where the semaphore isn't fair
 * a thread that comes while there are enough permits overtakes them.
 */
public class Semaphore implements java.io.Serializable {
    private final boolean fair;
    private int permits;
    private int waiting;
    private Waiter first;
    private Waiter last;

    /** One who waits. */
    private static final class Waiter {
        Waiter next;
    }

    public Semaphore(int permits) {
        this(permits, false);
    }

    public Semaphore(int permits, boolean fair) {
        this.permits = permits;
        this.fair = fair;
    }

    private static void check(int count) {
        if (count < 0) {
            throw new IllegalArgumentException();
        }
    }

    private boolean isFree(int count) {
        return permits >= count && (!fair || waiting == 0);
    }

    public void acquire() throws InterruptedException {
        acquire(1);
    }

    public synchronized void acquire(int count) throws InterruptedException {
        check(count);
        if (Thread.interrupted()) {
            throw new InterruptedException();
        }
        if (!isFree(count)) {
            await(count, 0, false);
        }
        permits -= count;
    }

    /** Waits until there are so many permits, and returns whether there are before the time is over. */
    private boolean await(int count, long nanos, boolean timed) throws InterruptedException {
        Waiter me = join();
        long left = nanos;
        try {
            while (first != me || permits < count) {
                if (timed && left <= 0) {
                    return false;
                }
                if (timed) {
                    left = jx.Parker.await(this, left);
                } else {
                    wait();
                }
            }
            return true;
        } finally {
            leave(me);
            notifyAll();
        }
    }

    private Waiter join() {
        Waiter me = new Waiter();
        if (last == null) {
            first = me;
        } else {
            last.next = me;
        }
        last = me;
        waiting++;
        return me;
    }

    private void leave(Waiter me) {
        Waiter before = null;
        for (Waiter w = first; w != me; w = w.next) {
            before = w;
        }
        if (before == null) {
            first = me.next;
        } else {
            before.next = me.next;
        }
        if (last == me) {
            last = before;
        }
        waiting--;
    }

    public void acquireUninterruptibly() {
        acquireUninterruptibly(1);
    }

    public synchronized void acquireUninterruptibly(int count) {
        check(count);
        boolean interrupted = false;
        while (!isFree(count)) {
            try {
                await(count, 0, false);
                break;
            } catch (InterruptedException e) {
                interrupted = true;
            }
        }
        permits -= count;
        if (interrupted) {
            Thread.currentThread().interrupt();
        }
    }

    public boolean tryAcquire() {
        return tryAcquire(1);
    }

    public synchronized boolean tryAcquire(int count) {
        check(count);
        if (permits < count) {
            return false;
        }
        permits -= count;
        return true;
    }

    public boolean tryAcquire(long time, TimeUnit unit) throws InterruptedException {
        return tryAcquire(1, time, unit);
    }

    public synchronized boolean tryAcquire(int count, long time, TimeUnit unit) throws InterruptedException {
        check(count);
        if (Thread.interrupted()) {
            throw new InterruptedException();
        }
        if (!isFree(count) && !await(count, unit.toNanos(time), true)) {
            return false;
        }
        permits -= count;
        return true;
    }

    public void release() {
        release(1);
    }

    public synchronized void release(int count) {
        check(count);
        permits += count;
        notifyAll();
    }

    public synchronized int availablePermits() {
        return permits;
    }

    public synchronized int drainPermits() {
        int drained = permits;
        permits = 0;
        return drained;
    }

    protected synchronized void reducePermits(int by) {
        check(by);
        permits -= by;
    }

    public boolean isFair() {
        return fair;
    }

    public final synchronized boolean hasQueuedThreads() {
        return waiting > 0;
    }

    public final synchronized int getQueueLength() {
        return waiting;
    }

    @Override
    public String toString() {
        return super.toString() + "[Permits = " + availablePermits() + "]";
    }
}
