import java.util.*;
import java.util.stream.*;

/** Optional and its relatives. */
public class Optionals {
    static Optional<Integer> parse(String s) {
        try {
            return Optional.of(Integer.parseInt(s));
        } catch (NumberFormatException e) {
            return Optional.empty();
        }
    }

    public static void main(String[] args) {
        System.out.println(parse("12").map(x -> x * 2) + " " + parse("x") + " " + parse("5").filter(x -> x > 9).isPresent());
        System.out.println(parse("7").flatMap(x -> parse("" + x + x)).orElse(0) + " " + parse("").orElseGet(() -> -1));
        parse("3").ifPresent(x -> System.out.println("got " + x));
        try {
            parse("no").orElseThrow(() -> new IllegalStateException("nothing"));
        } catch (IllegalStateException e) {
            System.out.println(e.getMessage());
        }
        try {
            Optional.empty().get();
        } catch (NoSuchElementException e) {
            System.out.println(e.getMessage());
        }
        try {
            Optional.of(null);
        } catch (NullPointerException e) {
            System.out.println("null");
        }
        System.out.println(Stream.of("1", "b", "3").map(Optionals::parse).filter(Optional::isPresent).map(Optional::get).collect(Collectors.toList()));
        System.out.println(OptionalInt.of(4) + " " + OptionalLong.empty() + " " + IntStream.empty().min().isPresent() + " " + OptionalInt.of(2).equals(OptionalInt.of(2)) + " " + Optional.of("a").hashCode());
        System.out.println(Objects.equals(null, null) + " " + Objects.hash(1, "a", null) + " " + Objects.toString(null, "default") + " " + Objects.compare("a", "b", Comparator.naturalOrder()) + " " + Objects.isNull(null) + " " + Objects.hashCode(null));
    }
}
