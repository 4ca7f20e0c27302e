import java.util.*;
import java.util.function.*;
import java.util.stream.*;

/** Int and long streams, flatMap, iterate, collectors by hand. */
public class Numbers {
    static void show(Object o) {
        System.out.println(o);
    }

    public static void main(String[] args) {
        show(IntStream.rangeClosed(1, 100).filter(n -> IntStream.rangeClosed(2, n / 2).noneMatch(d -> n % d == 0)).skip(1).boxed().collect(Collectors.toList()));
        show(IntStream.iterate(1, x -> x * 3).limit(8).sum() + " " + LongStream.range(1, 6).map(x -> x * x).sum() + " " + IntStream.of(4, 8, 15).max().getAsInt());
        show(Arrays.toString(IntStream.rangeClosed(1, 3).flatMap(x -> IntStream.range(0, x)).toArray()) + IntStream.empty().max() + IntStream.of(3).findFirst());
        show(IntStream.range(0, 5).mapToObj(i -> "s" + i).collect(Collectors.joining(",", "[", "]")) + IntStream.range(0, 5).mapToLong(i -> i * 10000000000L).sum() + " " + IntStream.range(0, 5).asLongStream().boxed().collect(Collectors.toSet()));
        show(Stream.iterate(new int[] {0, 1}, f -> new int[] {f[1], f[0] + f[1]}).limit(15).map(f -> f[0]).collect(Collectors.toList()));
        show(Stream.of("b", "a", "c").sorted(Collections.reverseOrder()).collect(Collectors.toCollection(ArrayDeque::new)));
        show(Stream.of(1, 2, 3, 4).collect(() -> new StringBuilder(), (sb, x) -> sb.append(x), (p, q) -> p.append(q)).toString());
        show(Stream.of("apple", "bob", "cat").collect(Collectors.toMap(s -> s.charAt(0), String::length)));
        show(IntStream.rangeClosed(1, 5).mapToObj(i -> IntStream.rangeClosed(1, i).mapToObj(j -> "*").collect(Collectors.joining())).collect(Collectors.joining("\n")));
        show(Stream.of(5, 3, 8).mapToInt(Integer::intValue).boxed().sorted(Comparator.reverseOrder()).map(Object::toString).collect(Collectors.joining(" ")));
        show(IntStream.rangeClosed(1, 20).boxed().collect(Collectors.groupingBy(i -> i % 3, Collectors.summingInt(i -> i))));
        show(IntStream.rangeClosed(1, 10).boxed().collect(Collectors.groupingBy(i -> i % 2 == 0 ? "even" : "odd", TreeMap::new, Collectors.mapping(i -> i * i, Collectors.toList()))));
        show(Stream.of(1, 2, 3, 4, 5).reduce(1, (a, b) -> a * b) + " " + Stream.of(1, 2, 3).mapToInt(x -> x).reduce(0, (a, b) -> a * 10 + b));
        show(Stream.of("x").flatMap(s -> Stream.of(s, s + s, s + s + s)).map(String::length).collect(Collectors.toList()) + " " + Stream.empty().findAny().isPresent());
        List<Integer> limited = new ArrayList<>();
        IntStream.generate(new IntSupplier() {
            int n;

            public int getAsInt() {
                return n++;
            }
        }).peek(limited::add).anyMatch(x -> x > 4);
        show(limited);
        show(IntStream.range(0, 20).boxed().filter(x -> x % 7 == 3).map(x -> x * 2).findFirst().get() + " " + Stream.of(1, 2, 3).count() + Stream.of(3, 1, 2).max(Comparator.naturalOrder()).get());
        Iterator<Integer> it = Stream.of(7, 8).iterator();
        show(it.next() + it.next() + " " + it.hasNext());
        show(Arrays.stream(new String[] {"q", "r"}).collect(Collectors.toList()) + " " + Arrays.stream(new int[] {1, 2, 3, 4}, 1, 3).sum() + " " + Arrays.asList(3, 4).stream().mapToLong(x -> x).sum());
        show(new Random(5).ints(5, 0, 10).boxed().collect(Collectors.toList()) + " " + new Random(1).nextInt(100) + " " + new Random(2).nextLong() + " " + new Random(3).nextBoolean());
        show(IntStream.rangeClosed(1, 1000).parallel().sum() + " " + Arrays.asList(1, 2, 3, 4).parallelStream().map(x -> x * x).collect(Collectors.toList()));
    }
}
