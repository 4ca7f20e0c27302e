import java.util.*;
import java.util.concurrent.*;
import java.util.concurrent.locks.*;

/** tryLock, lockInterruptibly, read and write locks, stamped locks. */
public class Varieties {
    public static void main(String[] args) throws Exception {
        ReentrantLock lock = new ReentrantLock();
        lock.lock();
        lock.lock();
        System.out.println(lock.isLocked() + " " + lock.isHeldByCurrentThread() + " " + lock.getHoldCount());
        boolean[] got = new boolean[2];
        Thread t = new Thread(() -> {
            got[0] = lock.tryLock();
            try {
                got[1] = lock.tryLock(50, TimeUnit.MILLISECONDS);
            } catch (InterruptedException e) {
                System.out.println("no");
            }
        });
        t.start();
        t.join();
        System.out.println(got[0] + " " + got[1]);
        Thread waiter = new Thread(() -> {
            try {
                lock.lockInterruptibly();
                System.out.println("unexpected");
            } catch (InterruptedException e) {
                System.out.println("interrupted while waiting");
            }
        });
        waiter.start();
        Thread.sleep(20);
        waiter.interrupt();
        waiter.join();
        lock.unlock();
        lock.unlock();
        System.out.println(lock.isLocked());
        try {
            lock.unlock();
        } catch (IllegalMonitorStateException e) {
            System.out.println("not the owner");
        }
        System.out.println(lock.tryLock() + " " + lock.toString().replaceAll("@[0-9a-f]+", "@") + " " + new ReentrantLock().toString().replaceAll("@[0-9a-f]+", "@"));
        lock.unlock();
        ReadWriteLock rw = new ReentrantReadWriteLock();
        Map<String, Integer> map = new HashMap<>();
        Thread[] writers = new Thread[3];
        for (int i = 0; i < 3; i++) {
            int n = i;
            writers[i] = new Thread(() -> {
                rw.writeLock().lock();
                try {
                    map.merge("k", n, Integer::sum);
                } finally {
                    rw.writeLock().unlock();
                }
                rw.readLock().lock();
                try {
                    map.get("k");
                } finally {
                    rw.readLock().unlock();
                }
            });
            writers[i].start();
        }
        for (Thread w : writers) {
            w.join();
        }
        System.out.println(map);
        ReentrantReadWriteLock re = new ReentrantReadWriteLock(true);
        re.writeLock().lock();
        re.readLock().lock();
        re.writeLock().unlock();
        System.out.println(re.getReadLockCount() + " " + re.isWriteLocked() + " " + re.isFair());
        re.readLock().unlock();
        StampedLock stamped = new StampedLock();
        long w = stamped.writeLock();
        System.out.println(stamped.isWriteLocked() + " " + (stamped.tryReadLock() == 0));
        stamped.unlockWrite(w);
        long o = stamped.tryOptimisticRead();
        System.out.println(stamped.validate(o));
        long r = stamped.readLock();
        long up = stamped.tryConvertToWriteLock(r);
        System.out.println((up != 0) + " " + stamped.validate(o));
        stamped.unlock(up);
        Lock two = new ReentrantLock();
        Condition c = two.newCondition();
        two.lock();
        System.out.println(c.await(10, TimeUnit.MILLISECONDS) + " " + (c.awaitNanos(1000) <= 0));
        two.unlock();
        LockSupport.unpark(Thread.currentThread());
        LockSupport.park();
        LockSupport.parkNanos(1000);
        System.out.println("parked and back");
    }
}
