import java.util.Arrays;
import java.util.List;
import java.util.concurrent.CountDownLatch;
import java.util.concurrent.TimeUnit;
import java.util.concurrent.locks.ReentrantLock;

/** Threads wait while they own a monitor or a lock that another wants, and a third one sleeps before it wakes them. */
public class WaitAsOwner {
    static final Object MONITOR = new Object();
    static final StringBuffer OUT = new StringBuffer();

    static void pause(int ms) {
        try {
            Thread.sleep(ms);
        } catch (InterruptedException e) {
            Thread.currentThread().interrupt();
        }
    }

    static void run(Runnable... tasks) throws InterruptedException {
        Thread[] threads = new Thread[tasks.length];
        for (int i = 0; i < threads.length; i++) {
            threads[i] = new Thread(tasks[i]);
            threads[i].start();
        }
        for (Thread t : threads) {
            t.join();
        }
        System.out.println(OUT);
        OUT.setLength(0);
    }

    static void await(CountDownLatch latch) {
        try {
            latch.await();
        } catch (InterruptedException e) {
            Thread.currentThread().interrupt();
        }
    }

    public static void main(String[] args) throws InterruptedException {
        CountDownLatch latch = new CountDownLatch(1), entered = new CountDownLatch(1);
        run(() -> {
            synchronized (MONITOR) {
                entered.countDown();
                await(latch);
                OUT.append("owner ");
            }
        }, () -> {
            await(entered);
            synchronized (MONITOR) {
                OUT.append("next ");
            }
        }, () -> {
            await(entered);
            pause(50);
            OUT.append("wakes ");
            latch.countDown();
        });
        List<Integer> times = Arrays.asList(10, 20, 30);
        CountDownLatch again = new CountDownLatch(1);
        run(() -> {
            synchronized (MONITOR) {
                again.countDown();
                times.forEach(WaitAsOwner::pause);
                OUT.append("owner ");
            }
        }, () -> {
            await(again);
            synchronized (MONITOR) {
                OUT.append("next ");
            }
        });
        ReentrantLock lock = new ReentrantLock();
        CountDownLatch locked = new CountDownLatch(1);
        run(() -> {
            lock.lock();
            try {
                locked.countDown();
                pause(1000);
                OUT.append("owner ");
            } finally {
                lock.unlock();
            }
        }, () -> {
            await(locked);
            try {
                OUT.append(lock.tryLock(20, TimeUnit.MILLISECONDS)).append(' ');
                OUT.append(lock.tryLock(60000, TimeUnit.MILLISECONDS)).append(' ');
                lock.unlock();
            } catch (InterruptedException e) {
                OUT.append(e);
            }
        }, () -> {
            await(locked);
            pause(300);
            OUT.append(lock.tryLock()).append(' ');
        });
    }
}
