import java.util.*;
import java.util.concurrent.*;

/** Stages joined by queues; results in order by futures. */
public class Pipeline {
    static final int END = -1;

    static Future<?> stage(ExecutorService pool, BlockingQueue<Integer> in, BlockingQueue<Integer> out, java.util.function.IntUnaryOperator f) {
        return pool.submit(() -> {
            for (int x = in.take(); x != END; x = in.take()) {
                out.put(f.applyAsInt(x));
            }
            out.put(END);
            return null;
        });
    }

    public static void main(String[] args) throws Exception {
        ExecutorService pool = Executors.newFixedThreadPool(3);
        List<BlockingQueue<Integer>> q = new ArrayList<>();
        for (int i = 0; i < 4; i++) {
            q.add(new ArrayBlockingQueue<>(2));
        }
        stage(pool, q.get(0), q.get(1), x -> x + 1);
        stage(pool, q.get(1), q.get(2), x -> x * x);
        stage(pool, q.get(2), q.get(3), x -> x - 1);
        new Thread(() -> {
            try {
                for (int i = 0; i < 8; i++) {
                    q.get(0).put(i);
                }
                q.get(0).put(END);
            } catch (InterruptedException e) {
                Thread.currentThread().interrupt();
            }
        }).start();
        List<Integer> out = new ArrayList<>();
        for (int x = q.get(3).take(); x != END; x = q.get(3).take()) {
            out.add(x);
        }
        System.out.println(out);
        pool.shutdown();
        System.out.println(pool.awaitTermination(1, TimeUnit.SECONDS));
        Map<String, Future<Integer>> words = new LinkedHashMap<>();
        ExecutorService counters = Executors.newFixedThreadPool(2);
        for (String s : new String[] {"the cat", "a dog and a cat", ""}) {
            words.put(s, counters.submit(() -> s.isEmpty() ? 0 : s.split(" ").length));
        }
        int total = 0;
        for (Map.Entry<String, Future<Integer>> e : words.entrySet()) {
            total += e.getValue().get();
        }
        counters.shutdown();
        System.out.println(total);
    }
}
