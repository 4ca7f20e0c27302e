import java.util.concurrent.TimeUnit;
import java.util.concurrent.locks.*;

/** A mutex and a latch over AbstractQueuedSynchronizer, as its documentation shows them. */
public class OwnLocks {
    static class Mutex implements Lock {
        private static class Sync extends AbstractQueuedSynchronizer {
            @Override
            protected boolean tryAcquire(int n) {
                if (compareAndSetState(0, 1)) {
                    setExclusiveOwnerThread(Thread.currentThread());
                    return true;
                }
                return false;
            }

            @Override
            protected boolean tryRelease(int n) {
                setExclusiveOwnerThread(null);
                setState(0);
                return true;
            }

            @Override
            protected boolean isHeldExclusively() {
                return getExclusiveOwnerThread() == Thread.currentThread();
            }

            Condition condition() {
                return new ConditionObject();
            }
        }

        private final Sync sync = new Sync();

        public void lock() {
            sync.acquire(1);
        }

        public boolean tryLock() {
            return sync.tryAcquire(1);
        }

        public void unlock() {
            sync.release(1);
        }

        public Condition newCondition() {
            return sync.condition();
        }

        public void lockInterruptibly() throws InterruptedException {
            sync.acquireInterruptibly(1);
        }

        public boolean tryLock(long time, TimeUnit unit) throws InterruptedException {
            return sync.tryAcquireNanos(1, unit.toNanos(time));
        }
    }

    static class Gate extends AbstractQueuedSynchronizer {
        @Override
        protected int tryAcquireShared(int n) {
            return getState() == 0 ? -1 : 1;
        }

        @Override
        protected boolean tryReleaseShared(int n) {
            setState(1);
            return true;
        }
    }

    static int count;

    public static void main(String[] args) throws Exception {
        Mutex m = new Mutex();
        Gate g = new Gate();
        Condition c = m.newCondition();
        Thread[] t = new Thread[3];
        for (int i = 0; i < 3; i++) {
            t[i] = new Thread(() -> {
                g.acquireShared(1);
                for (int k = 0; k < 4; k++) {
                    m.lock();
                    try {
                        count++;
                        c.signal();
                    } finally {
                        m.unlock();
                    }
                }
            });
            t[i].start();
        }
        m.lock();
        g.releaseShared(1);
        while (count < 12) {
            c.await();
        }
        m.unlock();
        for (Thread x : t) {
            x.join();
        }
        System.out.println(count + " " + m.tryLock() + " " + m.tryLock() + " " + m.tryLock(5, TimeUnit.MILLISECONDS));
    }
}
