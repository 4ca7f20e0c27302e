import java.util.*;
import java.util.concurrent.*;
import java.util.concurrent.atomic.*;

/** Primes found by workers that share an atomic counter; a concurrent set keeps them. */
public class Prime {
    static boolean isPrime(int n) {
        for (int d = 2; d * d <= n; d++) {
            if (n % d == 0) {
                return false;
            }
        }
        return n > 1;
    }

    public static void main(String[] args) throws Exception {
        AtomicInteger next = new AtomicInteger();
        ConcurrentSkipListSet<Integer> found = new ConcurrentSkipListSet<>();
        CountDownLatch done = new CountDownLatch(3);
        for (int w = 0; w < 3; w++) {
            new Thread(() -> {
                for (int n = next.getAndIncrement(); n < 40; n = next.getAndIncrement()) {
                    if (isPrime(n)) {
                        found.add(n);
                    }
                }
                done.countDown();
            }).start();
        }
        done.await();
        System.out.println(found + " " + found.size());
        LongAdder sum = new LongAdder();
        found.forEach(sum::add);
        System.out.println(sum.sum());
    }
}
