import java.util.*;

/** A thread pool written by hand, with futures and a poison pill. */
public class OwnPool {
    interface Job<T> {
        T run() throws Exception;
    }

    static class Promise<T> {
        private T value;
        private Exception failure;
        private boolean done;

        synchronized void set(T v, Exception e) {
            value = v;
            failure = e;
            done = true;
            notifyAll();
        }

        synchronized T get() throws Exception {
            while (!done) {
                wait();
            }
            if (failure != null) {
                throw failure;
            }
            return value;
        }
    }

    private final LinkedList<Runnable> queue = new LinkedList<>();
    private final List<Thread> threads = new ArrayList<>();
    private boolean closed;

    OwnPool(int n) {
        for (int i = 0; i < n; i++) {
            Thread t = new Thread(this::work, "own-" + i);
            threads.add(t);
            t.start();
        }
    }

    private void work() {
        while (true) {
            Runnable r;
            synchronized (queue) {
                while (queue.isEmpty()) {
                    if (closed) {
                        return;
                    }
                    try {
                        queue.wait();
                    } catch (InterruptedException e) {
                        return;
                    }
                }
                r = queue.removeFirst();
            }
            r.run();
        }
    }

    <T> Promise<T> submit(Job<T> job) {
        Promise<T> p = new Promise<>();
        synchronized (queue) {
            queue.add(() -> {
                try {
                    p.set(job.run(), null);
                } catch (Exception e) {
                    p.set(null, e);
                }
            });
            queue.notify();
        }
        return p;
    }

    void close() throws InterruptedException {
        synchronized (queue) {
            closed = true;
            queue.notifyAll();
        }
        for (Thread t : threads) {
            t.join();
        }
    }

    public static void main(String[] args) throws Exception {
        OwnPool pool = new OwnPool(2);
        List<Promise<Integer>> all = new ArrayList<>();
        for (int i = 0; i < 6; i++) {
            int n = i;
            all.add(pool.submit(() -> {
                if (n == 4) {
                    throw new IllegalStateException("four");
                }
                return n * n;
            }));
        }
        for (Promise<Integer> p : all) {
            try {
                System.out.print(p.get() + " ");
            } catch (IllegalStateException e) {
                System.out.print(e.getMessage() + " ");
            }
        }
        System.out.println();
        pool.close();
        System.out.println(pool.threads.stream().noneMatch(Thread::isAlive));
    }
}
