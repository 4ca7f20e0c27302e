import java.util.*;
import java.util.concurrent.*;

/** Timed calls where a thread computes: no time passes while it does. */
public class Deadlines {
    static long work(int rounds) {
        long x = 1;
        for (int i = 0; i < rounds; i++) {
            x = x * 31 + i;
        }
        return x;
    }

    public static void main(String[] args) throws Exception {
        ExecutorService pool = Executors.newSingleThreadExecutor();
        Future<Long> f = pool.submit(() -> work(4000));
        System.out.println(f.get(5, TimeUnit.SECONDS) == work(4000));
        CountDownLatch latch = new CountDownLatch(1);
        pool.execute(() -> {
            work(3000);
            latch.countDown();
        });
        System.out.println(latch.await(1, TimeUnit.SECONDS));
        Semaphore s = new Semaphore(0);
        pool.execute(() -> {
            work(3000);
            s.release();
        });
        System.out.println(s.tryAcquire(1, TimeUnit.SECONDS));
        BlockingQueue<String> q = new SynchronousQueue<>();
        pool.execute(() -> {
            work(2000);
            try {
                q.put("late but in time");
            } catch (InterruptedException e) {
                System.out.println("no");
            }
        });
        System.out.println(q.poll(1, TimeUnit.SECONDS));
        Thread t = new Thread(() -> work(3000));
        t.start();
        t.join(1000);
        System.out.println(t.isAlive());
        pool.shutdown();
        System.out.println(pool.awaitTermination(1, TimeUnit.SECONDS));
        long start = System.nanoTime();
        Thread.sleep(250);
        long passed = System.nanoTime() - start;
        System.out.println(passed >= 250_000_000L && passed < 300_000_000L);
        Object lock = new Object();
        boolean[] ready = new boolean[1];
        new Thread(() -> {
            work(2000);
            synchronized (lock) {
                ready[0] = true;
                lock.notifyAll();
            }
        }).start();
        synchronized (lock) {
            long end = System.currentTimeMillis() + 1000;
            while (!ready[0] && System.currentTimeMillis() < end) {
                lock.wait(end - System.currentTimeMillis() + 1);
            }
            System.out.println(ready[0]);
        }
    }
}
