import java.util.ArrayList;
import java.util.List;
import java.util.concurrent.Callable;
import java.util.concurrent.ExecutionException;
import java.util.concurrent.ExecutorService;
import java.util.concurrent.Executors;
import java.util.concurrent.Future;

/** Counts primes in parts, one task for each part, on a pool of three threads. */
public class Primes {
    private static final int LAST = 300;
    private static final int PART = 50;

    private static boolean isPrime(int n) {
        for (int divisor = 2; divisor * divisor <= n; divisor++) {
            if (n % divisor == 0) {
                return false;
            }
        }
        return n > 1;
    }

    private static int count(int from, int to) {
        int found = 0;
        for (int n = from; n < to; n++) {
            if (isPrime(n)) {
                found++;
            }
        }
        return found;
    }

    public static void main(String[] args) throws InterruptedException, ExecutionException {
        ExecutorService pool = Executors.newFixedThreadPool(3);
        try {
            List<Callable<Integer>> parts = new ArrayList<>();
            for (int from = 0; from < LAST; from += PART) {
                int begin = from;
                parts.add(() -> count(begin, begin + PART));
            }
            int sum = 0;
            int part = 0;
            for (Future<Integer> counted : pool.invokeAll(parts)) {
                System.out.println("from " + PART * part++ + ": " + counted.get());
                sum += counted.get();
            }
            System.out.println(sum + " primes below " + LAST);
        } finally {
            pool.shutdown();
        }
    }
}
