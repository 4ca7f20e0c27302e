import java.util.*;
import java.util.concurrent.*;
import java.util.concurrent.atomic.AtomicInteger;

/** Semaphore, CountDownLatch, CyclicBarrier, Phaser, Exchanger. */
public class Synchronizers {
    interface Body {
        void run(int id) throws Exception;
    }

    static void all(int n, Body body) throws InterruptedException {
        Thread[] threads = new Thread[n];
        for (int i = 0; i < n; i++) {
            int id = i;
            threads[i] = new Thread(() -> {
                try {
                    body.run(id);
                } catch (Exception e) {
                    System.out.println(e);
                }
            });
            threads[i].start();
        }
        for (Thread t : threads) {
            t.join();
        }
    }

    public static void main(String[] args) throws Exception {
        Semaphore s = new Semaphore(2);
        AtomicInteger inside = new AtomicInteger(), most = new AtomicInteger();
        all(5, id -> {
            s.acquire();
            most.accumulateAndGet(inside.incrementAndGet(), Math::max);
            Thread.sleep(10);
            inside.decrementAndGet();
            s.release();
        });
        System.out.println(most + " " + s.availablePermits() + " " + s.tryAcquire(3) + " " + s.tryAcquire(2) + " " + s.tryAcquire(5, TimeUnit.MILLISECONDS) + " " + s.drainPermits());
        CountDownLatch latch = new CountDownLatch(3);
        all(4, id -> {
            if (id < 3) {
                latch.countDown();
            } else {
                latch.await();
                System.out.println("open " + latch.getCount());
            }
        });
        System.out.println(latch.await(1, TimeUnit.SECONDS) + " " + new CountDownLatch(1).await(1, TimeUnit.MILLISECONDS));
        AtomicInteger rounds = new AtomicInteger();
        CyclicBarrier barrier = new CyclicBarrier(3, () -> System.out.println("round " + rounds.incrementAndGet()));
        all(3, id -> {
            for (int r = 0; r < 3; r++) {
                barrier.await();
            }
        });
        System.out.println(barrier.getParties() + " " + barrier.getNumberWaiting() + " " + barrier.isBroken());
        CyclicBarrier broken = new CyclicBarrier(2);
        try {
            broken.await(5, TimeUnit.MILLISECONDS);
        } catch (TimeoutException e) {
            System.out.println("timeout " + broken.isBroken());
        }
        Phaser phaser = new Phaser(3) {
            @Override
            protected boolean onAdvance(int phase, int parties) {
                System.out.println("phase " + phase + " of " + parties);
                return phase >= 2 || parties == 0;
            }
        };
        all(3, id -> {
            while (!phaser.isTerminated()) {
                phaser.arriveAndAwaitAdvance();
            }
        });
        System.out.println(phaser.isTerminated() + " " + new Phaser(1).arrive() + " " + new Phaser().register());
        Exchanger<String> ex = new Exchanger<>();
        String[] got = new String[2];
        all(2, id -> got[id] = ex.exchange("from " + id));
        System.out.println(Arrays.toString(got));
        try {
            ex.exchange("alone", 5, TimeUnit.MILLISECONDS);
        } catch (TimeoutException e) {
            System.out.println("nobody came " + e.getMessage());
        }
    }
}
