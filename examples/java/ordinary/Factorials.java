import java.math.BigInteger;
import java.util.concurrent.ConcurrentHashMap;
import java.util.concurrent.ConcurrentMap;
import java.util.concurrent.atomic.AtomicInteger;

/** Remembers what was computed, so that no thread computes it again. */
public class Factorials {
    private final ConcurrentMap<Integer, BigInteger> known = new ConcurrentHashMap<>();
    private final AtomicInteger computed = new AtomicInteger();

    private BigInteger compute(int n) {
        computed.incrementAndGet();
        BigInteger product = BigInteger.ONE;
        for (int factor = 2; factor <= n; factor++) {
            product = product.multiply(BigInteger.valueOf(factor));
        }
        return product;
    }

    BigInteger of(int n) {
        return known.computeIfAbsent(n, this::compute);
    }

    public static void main(String[] args) throws InterruptedException {
        Factorials factorials = new Factorials();
        Runnable asks = () -> {
            for (int n = 5; n <= 25; n += 10) {
                factorials.of(n);
            }
        };
        Thread one = new Thread(asks);
        Thread two = new Thread(asks);
        one.start();
        two.start();
        one.join();
        two.join();
        factorials.known.forEach((n, product) -> System.out.println(n + "! = " + product));
        System.out.println("computed " + factorials.computed + " times");
    }
}
