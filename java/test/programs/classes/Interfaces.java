import java.util.*;

/** Default, static and diamond methods of interfaces. */
public class Interfaces {
    interface Named {
        String name();

        default String greet() {
            return "Hello, " + name();
        }
    }

    interface Polite extends Named {
        @Override
        default String greet() {
            return "Dear " + name();
        }
    }

    interface Loud extends Named {
        @Override
        default String greet() {
            return name().toUpperCase() + "!";
        }

        static Loud of(String s) {
            return () -> s;
        }
    }

    static class Both implements Polite, Loud {
        public String name() {
            return "both";
        }

        @Override
        public String greet() {
            return Polite.super.greet() + " " + Loud.super.greet();
        }
    }

    static class Simple implements Polite {
        public String name() {
            return "simple";
        }
    }

    static class Override1 extends Simple {
        @Override
        public String greet() {
            return "<" + super.greet() + ">";
        }
    }

    interface Constants {
        int MAX = 10;
        String TEXT = "constant" + MAX;
        List<String> LIST = new ArrayList<>(Arrays.asList("x", "y"));
    }

    static class Impl implements Constants {
        int twice() {
            return MAX * 2;
        }
    }

    interface Counter {
        int[] STATE = new int[1];

        default int next() {
            return ++STATE[0];
        }
    }

    public static void main(String[] args) {
        Named n = () -> "lambda";
        System.out.println(n.greet() + "; " + new Both().greet() + "; " + new Simple().greet() + "; " + new Override1().greet() + "; " + Loud.of("soft").greet());
        System.out.println(new Impl().twice() + " " + Constants.TEXT + " " + Constants.LIST);
        Counter a = new Counter() { }, b = new Counter() { };
        System.out.println(a.next() + b.next() + a.next());
        Iterator<Integer> it = new Iterator<Integer>() {
            int i;

            public boolean hasNext() {
                return i < 3;
            }

            public Integer next() {
                return i++;
            }
        };
        it.forEachRemaining(x -> System.out.print(x + " "));
        System.out.println();
        try {
            it.remove();
        } catch (UnsupportedOperationException e) {
            System.out.println(e.getMessage());
        }
        Iterable<String> twice = () -> Arrays.asList("p", "q").iterator();
        for (String s : twice) {
            System.out.print(s);
        }
        twice.forEach(System.out::print);
        System.out.println();
        Comparator<String> c = Comparator.<String>naturalOrder().reversed();
        List<String> l = new ArrayList<>(Arrays.asList("b", "c", "a"));
        l.sort(c);
        System.out.println(l + " " + Comparator.nullsFirst(c).compare(null, "a") + " " + Map.Entry.<String, Integer>comparingByKey().compare(new AbstractMap.SimpleEntry<>("a", 1), new AbstractMap.SimpleEntry<>("b", 0)));
    }
}
