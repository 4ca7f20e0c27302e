import java.util.*;
import java.util.function.*;

/** What lambdas capture: locals of each type, this, parameters, loop variables. */
public class Captures {
    private String field = "field";
    private static int shared;

    Supplier<String> all(byte b, short s, char c, int i, long l, boolean z, String t, int[] a) {
        return () -> b + " " + s + " " + c + " " + i + " " + l + " " + z + " " + t + " " + a.length + " " + field + " " + shared;
    }

    List<Runnable> loops() {
        List<Runnable> out = new ArrayList<>();
        for (int i = 0; i < 3; i++) {
            int copy = i;
            out.add(() -> System.out.print(copy + " "));
        }
        for (String s : new String[] {"a", "b"}) {
            out.add(() -> System.out.print(s + field + " "));
        }
        return out;
    }

    class Inner {
        String own = "own";

        Supplier<String> both() {
            return () -> own + field + Captures.this.field;
        }
    }

    static <T> Consumer<T> twice(Consumer<? super T> c) {
        return t -> {
            c.accept(t);
            c.accept(t);
        };
    }

    public static void main(String[] args) {
        Captures c = new Captures();
        Supplier<String> s = c.all((byte) 1, (short) 2, 'c', 4, 5L, true, "t", new int[6]);
        System.out.println(s.get());
        c.field = "changed";
        shared = 9;
        System.out.println(s.get());
        c.loops().forEach(Runnable::run);
        System.out.println();
        System.out.println(c.new Inner().both().get());
        StringBuilder log = new StringBuilder();
        twice(log::append).accept("x");
        Captures.<Integer>twice(x -> log.append(x + 1)).accept(4);
        System.out.println(log);
        Object o = c;
        Supplier<String> bound = o::toString;
        System.out.println(bound.get().startsWith("Captures@"));
        try {
            String none = null;
            Supplier<Integer> bad = none::length;
            System.out.println("made " + bad);
        } catch (NullPointerException e) {
            System.out.println("bound to null");
        }
        new Object() {
            int depth = 3;

            void go() {
                Runnable r = () -> {
                    if (depth-- > 0) {
                        System.out.print(depth);
                        go();
                    }
                };
                r.run();
            }
        }.go();
        System.out.println();
    }
}
