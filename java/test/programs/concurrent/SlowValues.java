import java.util.concurrent.ConcurrentHashMap;
import java.util.concurrent.CountDownLatch;

/** Values that take long to compute: other keys are there meanwhile. */
public class SlowValues {
    static final ConcurrentHashMap<Integer, Integer> cache = new ConcurrentHashMap<>();

    static int slow(int n) {
        try {
            Thread.sleep(400);
        } catch (InterruptedException e) {
            throw new IllegalStateException(e);
        }
        return n * n;
    }

    public static void main(String[] args) throws InterruptedException {
        cache.put(7, 49);
        Thread a = new Thread(() -> System.out.println(cache.computeIfAbsent(3, SlowValues::slow)));
        a.start();
        Thread.sleep(10);
        System.out.println("seven " + cache.get(7));
        a.join();
        CountDownLatch latch = new CountDownLatch(1);
        Thread b = new Thread(() -> System.out.println(cache.computeIfAbsent(4, k -> {
            try {
                latch.await();
            } catch (InterruptedException e) {
                return null;
            }
            return 16;
        })));
        b.start();
        Thread.sleep(10);
        cache.put(5, 25);
        latch.countDown();
        b.join();
        System.out.println(cache);
    }
}
