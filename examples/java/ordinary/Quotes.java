import java.util.Arrays;
import java.util.List;
import java.util.concurrent.CompletableFuture;
import java.util.concurrent.ExecutorService;
import java.util.concurrent.Executors;
import java.util.concurrent.TimeUnit;
import java.util.stream.Collectors;

/** Asks shops for a price at the same time, and takes the cheapest; a shop that fails has none. */
public class Quotes {
    private static final int NONE = Integer.MAX_VALUE;

    private static int ask(String shop) {
        try {
            TimeUnit.MILLISECONDS.sleep(10 * shop.length());
        } catch (InterruptedException e) {
            Thread.currentThread().interrupt();
        }
        if (shop.startsWith("x")) {
            throw new IllegalStateException(shop + " is closed");
        }
        return 100 + shop.hashCode() % 37;
    }

    private static CompletableFuture<Integer> quote(String shop, ExecutorService pool) {
        return CompletableFuture.supplyAsync(() -> ask(shop), pool).exceptionally(e -> {
            System.out.println("no price: " + e.getCause().getMessage());
            return NONE;
        });
    }

    public static void main(String[] args) {
        ExecutorService pool = Executors.newFixedThreadPool(4);
        List<CompletableFuture<Integer>> asked = Arrays.asList("anna", "ben & co", "xavier").stream()
            .map(shop -> quote(shop, pool))
            .collect(Collectors.toList());
        int cheapest = CompletableFuture.allOf(asked.toArray(new CompletableFuture[0]))
            .thenApply(all -> asked.stream().mapToInt(CompletableFuture::join).min().orElse(NONE))
            .join();
        System.out.println("the cheapest is " + cheapest);
        String both = asked.get(0).thenCombine(asked.get(1), (a, b) -> a + " and " + b).join();
        System.out.println("the first two say " + both);
        pool.shutdown();
    }
}
