import java.util.*;

/** Value classes, defensive copies, static factories, interning. */
public class Immutable {
    static final class Money implements Comparable<Money> {
        private static final Map<Long, Money> CACHE = new HashMap<>();
        static final Money ZERO = of(0);
        private final long cents;

        private Money(long cents) {
            this.cents = cents;
        }

        static Money of(long cents) {
            return CACHE.computeIfAbsent(cents, Money::new);
        }

        Money plus(Money o) {
            return of(Math.addExact(cents, o.cents));
        }

        @Override
        public int compareTo(Money o) {
            return Long.compare(cents, o.cents);
        }

        @Override
        public boolean equals(Object o) {
            return this == o || o instanceof Money && ((Money) o).cents == cents;
        }

        @Override
        public int hashCode() {
            return Long.hashCode(cents);
        }

        @Override
        public String toString() {
            return (cents < 0 ? "-" : "") + Math.abs(cents / 100) + "." + String.format("%02d", Math.abs(cents % 100));
        }
    }

    static final class Period {
        private final List<Integer> days;

        Period(List<Integer> days) {
            this.days = Collections.unmodifiableList(new ArrayList<>(days));
        }

        List<Integer> days() {
            return days;
        }
    }

    public static void main(String[] args) {
        Money a = Money.of(1050), b = Money.of(-75);
        System.out.println(a + " " + b + " " + a.plus(b) + " " + (Money.of(1050) == a) + " " + a.equals(new Money(1050)) + " " + Money.ZERO.compareTo(b) + " " + a.hashCode());
        List<Integer> days = new ArrayList<>(Arrays.asList(1, 2));
        Period p = new Period(days);
        days.add(3);
        System.out.println(p.days());
        try {
            p.days().add(4);
        } catch (UnsupportedOperationException e) {
            System.out.println("unmodifiable");
        }
        try {
            Money.of(Long.MAX_VALUE).plus(Money.of(1));
        } catch (ArithmeticException e) {
            System.out.println(e.getMessage());
        }
        System.out.println(new TreeSet<>(Arrays.asList(a, b, Money.ZERO)) + " " + Collections.max(Arrays.asList(a, b)));
        String s = "in" + "tern", t = new String("intern");
        System.out.println((s == "intern") + " " + (t == s) + " " + (t.intern() == s) + " " + s.equals(t));
    }
}
