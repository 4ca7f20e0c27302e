import java.util.*;
import java.util.function.*;

/** Observer, visitor, builder, strategy, decorator, command, state, singleton. */
public class Patterns {
    interface Listener {
        void changed(String name, int value);
    }

    static class Model {
        private final List<Listener> listeners = new ArrayList<>();
        private int value;

        void add(Listener l) {
            listeners.add(l);
        }

        void set(int v) {
            value = v;
            listeners.forEach(l -> l.changed("value", v));
        }
    }

    interface Expr {
        <R> R accept(Visitor<R> v);
    }

    interface Visitor<R> {
        R number(int n);

        R plus(Expr a, Expr b);
    }

    static Expr number(int n) {
        return new Expr() {
            public <R> R accept(Visitor<R> v) {
                return v.number(n);
            }
        };
    }

    static Expr plus(Expr a, Expr b) {
        return new Expr() {
            public <R> R accept(Visitor<R> v) {
                return v.plus(a, b);
            }
        };
    }

    static class Eval implements Visitor<Integer> {
        public Integer number(int n) {
            return n;
        }

        public Integer plus(Expr a, Expr b) {
            return a.accept(this) + b.accept(this);
        }
    }

    static class Show implements Visitor<String> {
        public String number(int n) {
            return "" + n;
        }

        public String plus(Expr a, Expr b) {
            return "(" + a.accept(this) + " + " + b.accept(this) + ")";
        }
    }

    static class Pizza {
        private final String size;
        private final Set<String> toppings;

        private Pizza(Builder b) {
            size = b.size;
            toppings = b.toppings;
        }

        static class Builder {
            private String size = "medium";
            private final Set<String> toppings = new LinkedHashSet<>();

            Builder size(String s) {
                size = s;
                return this;
            }

            Builder with(String... t) {
                toppings.addAll(Arrays.asList(t));
                return this;
            }

            Pizza build() {
                return new Pizza(this);
            }
        }

        @Override
        public String toString() {
            return size + " with " + String.join(" and ", toppings);
        }
    }

    static class Editor {
        private final StringBuilder text = new StringBuilder();
        private final Deque<Runnable> undo = new ArrayDeque<>();

        void type(String s) {
            int before = text.length();
            text.append(s);
            undo.push(() -> text.setLength(before));
        }

        void undo() {
            if (!undo.isEmpty()) {
                undo.pop().run();
            }
        }
    }

    enum State {
        LOCKED {
            State coin() {
                return OPEN;
            }

            State push() {
                return this;
            }
        },
        OPEN {
            State coin() {
                return this;
            }

            State push() {
                return LOCKED;
            }
        };

        abstract State coin();

        abstract State push();
    }

    static class Registry {
        private static Registry instance;
        private int uses;

        static synchronized Registry get() {
            if (instance == null) {
                instance = new Registry();
            }
            instance.uses++;
            return instance;
        }
    }

    static <T> UnaryOperator<T> logged(String name, UnaryOperator<T> f) {
        return x -> {
            T y = f.apply(x);
            System.out.println(name + ": " + x + " -> " + y);
            return y;
        };
    }

    public static void main(String[] args) {
        Model m = new Model();
        int[] sum = {0};
        m.add((n, v) -> System.out.println(n + " is " + v));
        m.add((n, v) -> sum[0] += v);
        m.set(3);
        m.set(4);
        System.out.println(sum[0]);
        Expr e = plus(number(1), plus(number(2), number(3)));
        System.out.println(e.accept(new Show()) + " = " + e.accept(new Eval()));
        System.out.println(new Pizza.Builder().size("large").with("ham", "olives").build());
        Editor ed = new Editor();
        ed.type("hello");
        ed.type(" world");
        ed.undo();
        System.out.println(ed.text);
        State s = State.LOCKED;
        for (char c : "pcpcc".toCharArray()) {
            s = c == 'c' ? s.coin() : s.push();
            System.out.print(s + " ");
        }
        System.out.println();
        Registry.get();
        System.out.println((Registry.get() == Registry.get()) + " " + Registry.get().uses);
        Map<String, BinaryOperator<Integer>> strategies = new TreeMap<>();
        strategies.put("max", BinaryOperator.maxBy(Comparator.naturalOrder()));
        strategies.put("sum", Integer::sum);
        strategies.forEach((k, f) -> System.out.println(k + " " + f.apply(3, 4)));
        UnaryOperator<Integer> twice = logged("double", x -> x * 2);
        twice.andThen(logged("inc", x -> x + 1)).apply(5);
    }
}
