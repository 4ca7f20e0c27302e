import java.util.concurrent.*;

/** Interrupts of wait, join, take, sleep and of a loop that asks. */
public class Interrupts {
    interface Blocking {
        void run() throws InterruptedException;
    }

    static void interrupted(String name, Blocking b) throws InterruptedException {
        Thread t = new Thread(() -> {
            try {
                b.run();
                System.out.println(name + " ended");
            } catch (InterruptedException e) {
                System.out.println(name + " interrupted " + Thread.currentThread().isInterrupted());
            }
        });
        t.start();
        Thread.sleep(10);
        t.interrupt();
        t.join();
    }

    public static void main(String[] args) throws Exception {
        Object o = new Object();
        interrupted("wait", () -> {
            synchronized (o) {
                o.wait();
            }
        });
        Thread forever = new Thread(() -> {
            while (!Thread.currentThread().isInterrupted()) {
                Thread.yield();
            }
            System.out.println("loop ends");
        });
        forever.start();
        interrupted("join", forever::join);
        forever.interrupt();
        forever.join();
        interrupted("take", () -> new LinkedBlockingQueue<String>().take());
        interrupted("put", () -> {
            BlockingQueue<Integer> full = new ArrayBlockingQueue<>(1);
            full.put(1);
            full.put(2);
        });
        interrupted("latch", new CountDownLatch(1)::await);
        interrupted("semaphore", new Semaphore(0)::acquire);
        interrupted("sleep", () -> Thread.sleep(Long.MAX_VALUE));
        interrupted("flag", () -> {
            Thread.currentThread().interrupt();
            Thread.sleep(1);
        });
    }
}
