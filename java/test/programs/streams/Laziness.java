import java.util.*;
import java.util.stream.*;

/** The order in which stages are called, short circuits, sorted as a barrier, iterators and spliterators. */
public class Laziness {
    public static void main(String[] args) {
        StringBuilder log = new StringBuilder();
        Stream<Integer> s = Stream.of(3, 1, 2).peek(x -> log.append("p").append(x)).filter(x -> {
            log.append("f").append(x);
            return x != 1;
        }).map(x -> {
            log.append("m").append(x);
            return x * 10;
        });
        System.out.println("nothing yet [" + log + "]");
        System.out.println(s.collect(Collectors.toList()) + " " + log);
        log.setLength(0);
        System.out.println(Stream.of(4, 5, 6, 7).peek(x -> log.append(x)).anyMatch(x -> x == 5) + " " + log);
        log.setLength(0);
        System.out.println(Stream.of("b", "a", "c").peek(x -> log.append("1").append(x)).sorted().peek(x -> log.append("2").append(x)).limit(2).collect(Collectors.joining()) + " " + log);
        log.setLength(0);
        Iterator<Integer> it = Stream.iterate(1, x -> {
            log.append(".");
            return x + 1;
        }).skip(2).limit(3).iterator();
        while (it.hasNext()) {
            log.append(it.next());
        }
        System.out.println(log);
        Spliterator<Integer> sp = Arrays.asList(1, 2, 3, 4, 5, 6).spliterator();
        Spliterator<Integer> half = sp.trySplit();
        List<Integer> left = new ArrayList<>(), right = new ArrayList<>();
        half.forEachRemaining(left::add);
        sp.tryAdvance(right::add);
        System.out.println(left + " " + right + " " + sp.estimateSize());
        System.out.println(StreamSupport.stream(Arrays.asList("x", "y").spliterator(), false).map(String::toUpperCase).collect(Collectors.toList()));
        List<Integer> source = new ArrayList<>(Arrays.asList(1, 2));
        Stream<Integer> late = source.stream();
        source.add(3);
        System.out.println(late.count() + " " + Stream.builder().add("q").add(2).build().map(Object::toString).collect(Collectors.joining()));
        boolean[] closed = new boolean[1];
        try (Stream<String> c = Stream.of("z").onClose(() -> closed[0] = true)) {
            c.forEach(x -> { });
        }
        System.out.println(closed[0] + " " + Stream.of(1, 2, 2, 3, 3, 3).distinct().map(String::valueOf).reduce((a, b) -> b + a).get());
    }
}
