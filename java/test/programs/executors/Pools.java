import java.util.*;
import java.util.concurrent.*;

/** Fixed pools, futures, invokeAll and invokeAny. */
public class Pools {
    public static void main(String[] args) throws Exception {
        ExecutorService pool = Executors.newFixedThreadPool(3);
        List<Future<Integer>> futures = new ArrayList<>();
        for (int i = 1; i <= 6; i++) {
            final int n = i;
            futures.add(pool.submit(() -> n * n));
        }
        int sum = 0;
        for (Future<Integer> f : futures) {
            sum += f.get();
        }
        System.out.println("sum " + sum);
        List<Callable<String>> tasks = new ArrayList<>();
        for (String s : "a b c".split(" ")) {
            tasks.add(() -> s + s);
        }
        for (Future<String> f : pool.invokeAll(tasks)) {
            System.out.println(f.get() + " " + f.isDone() + " " + f.isCancelled());
        }
        List<Callable<String>> some = new ArrayList<>();
        some.add(() -> {
            throw new IllegalStateException("bad");
        });
        some.add(() -> "good");
        System.out.println(pool.invokeAny(some));
        Future<?> failed = pool.submit(() -> {
            throw new IllegalArgumentException("no");
        });
        try {
            failed.get();
        } catch (ExecutionException e) {
            System.out.println(e.getMessage() + " / " + e.getCause().getMessage());
        }
        System.out.println(pool.submit(() -> { }, "value").get());
        pool.shutdown();
        System.out.println(pool.awaitTermination(1, TimeUnit.MINUTES) + " " + pool.isShutdown() + " " + pool.isTerminated());
        try {
            pool.execute(() -> { });
        } catch (RejectedExecutionException e) {
            System.out.println("rejected");
        }
        ExecutorService single = Executors.newSingleThreadExecutor(r -> new Thread(r, "the-one"));
        System.out.println(single.submit(() -> Thread.currentThread().getName()).get());
        single.shutdownNow();
        ExecutorService named = Executors.newFixedThreadPool(1);
        System.out.println(named.submit(() -> Thread.currentThread().getName().replaceAll("\\d+", "N")).get());
        named.shutdown();
        ThreadPoolExecutor small = new ThreadPoolExecutor(1, 1, 0, TimeUnit.SECONDS, new ArrayBlockingQueue<>(1), new ThreadPoolExecutor.CallerRunsPolicy());
        CountDownLatch hold = new CountDownLatch(1);
        small.execute(() -> {
            try {
                hold.await();
            } catch (InterruptedException e) {
                System.out.println("interrupted");
            }
        });
        small.execute(() -> System.out.println("queued"));
        small.execute(() -> System.out.println("by " + Thread.currentThread().getName()));
        hold.countDown();
        small.shutdown();
        small.awaitTermination(10, TimeUnit.SECONDS);
        System.out.println(small.getCompletedTaskCount() + " " + small.getPoolSize());
    }
}
