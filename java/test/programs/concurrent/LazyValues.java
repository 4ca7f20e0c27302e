import java.util.concurrent.*;
import java.util.concurrent.atomic.*;
import java.util.function.Supplier;

/** Lazy values: holder class, double-checked lock, computeIfAbsent, FutureTask: each made once. */
public class LazyValues {
    static final AtomicInteger MADE = new AtomicInteger();

    static class Holder {
        static final String VALUE = "holder" + MADE.incrementAndGet();
    }

    static class Lazy<T> implements Supplier<T> {
        private volatile T value;
        private final Supplier<T> maker;

        Lazy(Supplier<T> maker) {
            this.maker = maker;
        }

        @Override
        public T get() {
            T v = value;
            if (v == null) {
                synchronized (this) {
                    v = value;
                    if (v == null) {
                        value = v = maker.get();
                    }
                }
            }
            return v;
        }
    }

    static final ConcurrentMap<String, FutureTask<Integer>> MEMO = new ConcurrentHashMap<>();

    static int memo(String key, AtomicInteger calls) throws Exception {
        FutureTask<Integer> task = new FutureTask<>(() -> calls.incrementAndGet() * 0 + key.length());
        FutureTask<Integer> old = MEMO.putIfAbsent(key, task);
        if (old == null) {
            task.run();
            old = task;
        }
        return old.get();
    }

    public static void main(String[] args) throws Exception {
        AtomicInteger calls = new AtomicInteger(), computed = new AtomicInteger(), tasks = new AtomicInteger();
        Lazy<Object> lazy = new Lazy<>(() -> {
            calls.incrementAndGet();
            return new Object();
        });
        ConcurrentHashMap<String, Integer> map = new ConcurrentHashMap<>();
        ConcurrentHashMap<Object, Boolean> seen = new ConcurrentHashMap<>();
        Thread[] t = new Thread[4];
        for (int i = 0; i < 4; i++) {
            t[i] = new Thread(() -> {
                seen.put(lazy.get(), true);
                seen.put(Holder.VALUE, true);
                map.computeIfAbsent("k", k -> computed.incrementAndGet());
                try {
                    memo("four", tasks);
                } catch (Exception e) {
                    System.out.println(e);
                }
            });
            t[i].start();
        }
        for (Thread x : t) {
            x.join();
        }
        System.out.println(calls + " " + MADE + " " + computed + " " + tasks + " " + seen.size() + " " + map);
    }
}
