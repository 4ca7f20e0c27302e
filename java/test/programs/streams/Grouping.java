import java.util.*;
import java.util.function.*;
import java.util.stream.*;

/** Nested collectors and collectors of one's own. */
public class Grouping {
    static class Sale {
        final String region, product;
        final int amount;

        Sale(String region, String product, int amount) {
            this.region = region;
            this.product = product;
            this.amount = amount;
        }

        String region() {
            return region;
        }

        String product() {
            return product;
        }

        int amount() {
            return amount;
        }
    }

    static void show(Object o) {
        System.out.println(o);
    }

    public static void main(String[] args) {
        List<Sale> sales = Arrays.asList(new Sale("north", "tea", 5), new Sale("south", "tea", 7), new Sale("north", "milk", 2), new Sale("north", "tea", 4), new Sale("south", "cake", 9), new Sale("west", "milk", 1));
        show(sales.stream().collect(Collectors.groupingBy(Sale::region, TreeMap::new, Collectors.groupingBy(Sale::product, TreeMap::new, Collectors.summingInt(Sale::amount)))));
        show(sales.stream().collect(Collectors.groupingBy(Sale::product, TreeMap::new, Collectors.mapping(Sale::region, Collectors.toCollection(TreeSet::new)))));
        show(sales.stream().collect(Collectors.toMap(Sale::region, Sale::amount, Math::max, TreeMap::new)));
        show(sales.stream().collect(Collectors.partitioningBy(s -> s.amount > 4, Collectors.mapping(Sale::product, Collectors.joining("+")))));
        Collector<Sale, int[], String> stats = Collector.of(() -> new int[] {Integer.MAX_VALUE, Integer.MIN_VALUE, 0}, (a, s) -> {
            a[0] = Math.min(a[0], s.amount);
            a[1] = Math.max(a[1], s.amount);
            a[2] += s.amount;
        }, (a, b) -> a, a -> a[0] + ".." + a[1] + " sum " + a[2]);
        show(sales.stream().collect(stats));
        show(sales.stream().collect(Collectors.groupingBy(Sale::region, LinkedHashMap::new, stats)));
        show(sales.stream().map(Sale::amount).collect(Collectors.reducing(0, (a, b) -> a * 10 + b)));
        show(sales.stream().collect(Collectors.groupingBy(Sale::region, TreeMap::new, Collectors.collectingAndThen(Collectors.maxBy(Comparator.comparingInt(Sale::amount)), o -> o.map(Sale::product).orElse("?")))));
        show(Stream.of("a-1", "b-2", "a-3").map(s -> s.split("-")).collect(Collectors.groupingBy(p -> p[0], TreeMap::new, Collectors.mapping(p -> Integer.valueOf(p[1]), Collectors.toList()))));
        show(IntStream.range(0, 10).boxed().collect(Collectors.collectingAndThen(Collectors.toList(), l -> {
            Collections.reverse(l);
            return l;
        })));
        show(sales.stream().collect(Collectors.counting()) + " " + sales.stream().collect(Collectors.minBy(Comparator.comparing(Sale::product))).get().product + " " + sales.stream().collect(Collectors.summarizingInt(Sale::amount)).getMax());
        Map<Boolean, Long> primes = IntStream.rangeClosed(2, 30).boxed().collect(Collectors.partitioningBy(n -> IntStream.range(2, n).noneMatch(d -> n % d == 0), Collectors.counting()));
        show(primes);
        ConcurrentMapLike.run(sales);
    }

    static class ConcurrentMapLike {
        static void run(List<Sale> sales) {
            show(new TreeMap<>(sales.stream().collect(Collectors.groupingByConcurrent(Sale::region, Collectors.counting()))));
            Function<Sale, String> key = s -> s.region.substring(0, 1) + s.product.substring(0, 1);
            show(sales.stream().map(key).distinct().sorted().collect(Collectors.toList()));
        }
    }
}
