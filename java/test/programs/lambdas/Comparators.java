import java.util.*;

/** Comparators: keys, chains, nulls, reversals, and sorts that are stable. */
public class Comparators {
    static class P {
        final String name;
        final Integer age;
        final long score;

        P(String name, Integer age, long score) {
            this.name = name;
            this.age = age;
            this.score = score;
        }

        String name() {
            return name;
        }

        Integer age() {
            return age;
        }

        long score() {
            return score;
        }

        @Override
        public String toString() {
            return name + age;
        }
    }

    static void show(List<P> l, Comparator<? super P> c) {
        List<P> copy = new ArrayList<>(l);
        copy.sort(c);
        System.out.println(copy);
    }

    public static void main(String[] args) {
        List<P> l = Arrays.asList(new P("bo", 3, 9), new P("al", null, 7), new P("cy", 1, 9), new P("al", 5, 8), new P("Di", 3, 1));
        show(l, Comparator.comparing(P::name));
        show(l, Comparator.comparing(P::name, String.CASE_INSENSITIVE_ORDER).reversed());
        show(l, Comparator.comparing(P::age, Comparator.nullsFirst(Comparator.naturalOrder())));
        show(l, Comparator.comparing(P::age, Comparator.nullsLast(Comparator.reverseOrder())).thenComparing(P::name));
        show(l, Comparator.comparingLong(P::score).thenComparing(P::name, Comparator.reverseOrder()).thenComparingInt(p -> p.age == null ? 0 : p.age));
        show(l, (a, b) -> a.name.length() - b.name.length());
        show(l, Collections.reverseOrder(Comparator.comparing(P::score)));
        Integer[] n = {5, 3, 9, 1, 7};
        Arrays.sort(n, (a, b) -> b - a);
        System.out.println(Arrays.toString(n) + Collections.min(Arrays.asList(n), Comparator.comparing(x -> Math.abs(x - 6))));
        try {
            Integer[] bad = new Integer[40];
            for (int i = 0; i < bad.length; i++) {
                bad[i] = i * 17 % 40;
            }
            Arrays.sort(bad, (a, b) -> 1);
            System.out.println("sorted somehow " + bad.length);
        } catch (IllegalArgumentException e) {
            System.out.println(e.getMessage());
        }
        TreeMap<String, Integer> m = new TreeMap<>(Comparator.comparing(String::length).thenComparing(Comparator.reverseOrder()));
        for (String s : "one two three four five six".split(" ")) {
            m.put(s, s.length());
        }
        System.out.println(m);
    }
}
