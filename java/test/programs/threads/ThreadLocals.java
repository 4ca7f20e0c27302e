import java.util.*;
import java.util.concurrent.*;

/** Thread locals in a pool, inherited priorities and groups, names by a factory. */
public class ThreadLocals {
    static final ThreadLocal<List<String>> LOG = ThreadLocal.withInitial(ArrayList::new);

    static class Named implements ThreadFactory {
        private int n;

        @Override
        public synchronized Thread newThread(Runnable r) {
            Thread t = new Thread(r, "worker-" + ++n);
            t.setDaemon(false);
            return t;
        }
    }

    public static void main(String[] args) throws Exception {
        ExecutorService pool = Executors.newFixedThreadPool(1, new Named());
        for (int i = 0; i < 3; i++) {
            int n = i;
            pool.submit(() -> LOG.get().add("task " + n)).get();
        }
        System.out.println(pool.submit(() -> Thread.currentThread().getName() + " " + LOG.get()).get());
        System.out.println(LOG.get());
        pool.submit(LOG::remove).get();
        System.out.println(pool.submit(() -> LOG.get().size()).get());
        pool.shutdown();
        ThreadGroup g = new ThreadGroup("workers");
        Thread t = new Thread(g, () -> System.out.println(Thread.currentThread().getThreadGroup().getName() + " " + Thread.currentThread().getPriority()), "in group");
        t.setPriority(7);
        t.start();
        t.join();
        ThreadLocal<Integer> counter = new ThreadLocal<Integer>() {
            private int next = 100;

            @Override
            protected synchronized Integer initialValue() {
                return next++;
            }
        };
        Set<Integer> ids = ConcurrentHashMap.newKeySet();
        Thread[] all = new Thread[3];
        for (int i = 0; i < 3; i++) {
            all[i] = new Thread(() -> ids.add(counter.get() + counter.get() * 0));
            all[i].start();
        }
        for (Thread x : all) {
            x.join();
        }
        System.out.println(new TreeSet<>(ids) + " " + counter.get());
        int random = ThreadLocalRandom.current().nextInt(5, 10);
        System.out.println(random >= 5 && random < 10);
    }
}
