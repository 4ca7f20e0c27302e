import java.util.*;
import java.util.concurrent.*;

/** Scheduled tasks, timeouts, cancellation, FutureTask. */
public class Scheduled {
    public static void main(String[] args) throws Exception {
        ScheduledExecutorService s = Executors.newScheduledThreadPool(1);
        List<String> log = Collections.synchronizedList(new ArrayList<>());
        ScheduledFuture<String> late = s.schedule(() -> "late", 4000, TimeUnit.MILLISECONDS);
        s.schedule(() -> log.add("second"), 2500, TimeUnit.MILLISECONDS);
        s.schedule(() -> log.add("first"), 100, TimeUnit.MILLISECONDS);
        System.out.println(late.get() + " " + log);
        CountDownLatch ticks = new CountDownLatch(3);
        ScheduledFuture<?> every = s.scheduleAtFixedRate(ticks::countDown, 10, 10, TimeUnit.MILLISECONDS);
        ticks.await();
        every.cancel(false);
        System.out.println(every.isCancelled() + " " + ticks.getCount());
        s.shutdown();
        System.out.println(s.awaitTermination(5, TimeUnit.SECONDS));
        ExecutorService pool = Executors.newCachedThreadPool();
        Future<String> slow = pool.submit(() -> {
            Thread.sleep(10_000);
            return "slow";
        });
        try {
            slow.get(50, TimeUnit.MILLISECONDS);
        } catch (TimeoutException e) {
            System.out.println("timeout " + slow.isDone());
        }
        System.out.println(slow.cancel(true) + " " + slow.isCancelled());
        try {
            slow.get();
        } catch (CancellationException e) {
            System.out.println("cancelled");
        }
        CompletionService<Integer> cs = new ExecutorCompletionService<>(pool);
        int[] delays = {60, 20, 40};
        for (int d : delays) {
            cs.submit(() -> {
                Thread.sleep(d * 40L);
                return d;
            });
        }
        for (int i = 0; i < 3; i++) {
            System.out.print(cs.take().get() + " ");
        }
        System.out.println();
        List<Runnable> never = pool.shutdownNow();
        System.out.println(never.size());
        FutureTask<Integer> task = new FutureTask<>(() -> 6 * 7);
        new Thread(task).start();
        System.out.println(task.get() + " " + task.isDone());
        Timer timer = new Timer(true);
        CountDownLatch fired = new CountDownLatch(1);
        timer.schedule(new TimerTask() {
            @Override
            public void run() {
                fired.countDown();
            }
        }, 50);
        System.out.println(fired.await(1, TimeUnit.SECONDS));
        timer.cancel();
        System.out.println(TimeUnit.SECONDS.toMillis(3) + " " + TimeUnit.MILLISECONDS.toSeconds(4500) + " " + TimeUnit.HOURS.convert(7200, TimeUnit.SECONDS) + " " + TimeUnit.NANOSECONDS);
        TimeUnit.MILLISECONDS.sleep(5);
    }
}
