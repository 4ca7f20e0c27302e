import java.util.*;
import java.util.function.*;

/** Every form of lambda and of method reference. */
public class Forms {
    interface Shape {
        int area();

        default String describe() {
            return name() + " of " + area();
        }

        default String name() {
            return "shape";
        }

        static Shape square(int side) {
            return () -> side * side;
        }
    }

    interface Tri<A, B, C, R> {
        R apply(A a, B b, C c);
    }

    static class Counter {
        private int n;

        int next() {
            return ++n;
        }

        Supplier<Integer> supplier() {
            return () -> this.next() * 10;
        }

        class Inner {
            IntSupplier both() {
                return () -> n + 1000;
            }
        }
    }

    static class Base {
        String hello() {
            return "base";
        }
    }

    static class Derived extends Base {
        @Override
        String hello() {
            return "derived";
        }

        Supplier<String> above() {
            return super::hello;
        }

        Supplier<String> own() {
            return this::hello;
        }
    }

    static <T extends Comparable<T>> T largest(List<T> list, BinaryOperator<T> choose) {
        T best = list.get(0);
        for (T t : list) {
            best = choose.apply(best, t);
        }
        return best;
    }

    static int twice(IntUnaryOperator f, int x) {
        return f.applyAsInt(f.applyAsInt(x));
    }

    static int sum(int... all) {
        int s = 0;
        for (int a : all) {
            s += a;
        }
        return s;
    }

    public static void main(String[] args) {
        Runnable r = () -> System.out.println("run");
        r.run();
        Function<Integer, Function<Integer, Integer>> add = a -> b -> a + b;
        System.out.println(add.apply(3).apply(4));
        BiFunction<String, Integer, Character> at = String::charAt;
        System.out.println(at.apply("hello", 1));
        Function<String, Integer> length = String::length;
        ToIntFunction<String> asInt = String::length;
        System.out.println(length.apply("four") + asInt.applyAsInt("three"));
        Supplier<List<String>> make = ArrayList::new;
        List<String> list = make.get();
        Consumer<String> adder = list::add;
        adder.andThen(s -> System.out.println("added " + s)).accept("x");
        IntFunction<int[]> array = int[]::new;
        Function<Integer, String[]> texts = String[]::new;
        System.out.println(array.apply(3).length + texts.apply(2).length);
        Function<String, Integer> parse = Integer::parseInt;
        System.out.println(parse.compose((String s) -> s.trim()).andThen(x -> x + 1).apply(" 41 "));
        Counter c = new Counter();
        IntSupplier next = c::next;
        System.out.println(next.getAsInt() + next.getAsInt() + c.supplier().get() + c.new Inner().both().getAsInt());
        Derived d = new Derived();
        System.out.println(d.above().get() + " " + d.own().get());
        System.out.println(Shape.square(5).describe());
        System.out.println(largest(Arrays.asList("pear", "zoo", "apple"), BinaryOperator.maxBy(Comparator.naturalOrder())));
        System.out.println(twice(x -> x * x, 3) + " " + twice(Math::abs, -3));
        Predicate<String> empty = String::isEmpty;
        System.out.println(empty.negate().and(s -> s.length() > 2).or(s -> s.equals("q")).test("abc") + " " + Predicate.isEqual("a").test("a"));
        Tri<Integer, Long, Object, String> tri = (a, b, o) -> a + ":" + b + ":" + o;
        System.out.println(tri.apply(1, 2L, 'c'));
        UnaryOperator<String> up = String::toUpperCase;
        System.out.println(up.apply("up") + Function.<Integer>identity().apply(9));
        Callback cb = Forms::sum;
        System.out.println(cb.call(1, 2));
        Function<Object, String> text = Objects::toString;
        System.out.println(text.apply(null) + text.apply(5));
        int[] box = {0};
        Runnable bump = () -> box[0]++;
        bump.run();
        bump.run();
        System.out.println(box[0]);
        BooleanSupplier yes = () -> true;
        LongBinaryOperator mul = (a, b) -> a * b;
        IntBinaryOperator mod = (a, b) -> a % b;
        ObjIntConsumer<String> out = (s, n) -> System.out.println(s + n);
        IntPredicate even = n -> n % 2 == 0;
        IntToLongFunction wide = n -> n * 10000000000L;
        out.accept("" + yes.getAsBoolean() + mul.applyAsLong(1 << 20, 1 << 20) + even.test(4) + wide.applyAsLong(5), mod.applyAsInt(17, 5));
        Runnable nested = () -> {
            Runnable deeper = () -> {
                Supplier<Runnable> deepest = () -> () -> System.out.println("deep " + list + args.length);
                deepest.get().run();
            };
            deeper.run();
        };
        nested.run();
        Comparator<String> byLength = (a, b) -> a.length() - b.length();
        List<String> words = new ArrayList<>(Arrays.asList("ccc", "a", "bb", "dd"));
        words.sort(byLength.reversed().thenComparing(Function.identity(), Comparator.reverseOrder()));
        System.out.println(words);
        Runnable serial = (Runnable & java.io.Serializable) () -> System.out.println("both");
        serial.run();
        Recursive fact = new Recursive();
        System.out.println(fact.f.apply(10));
        Optional<String> some = Optional.of("v").map(s -> s + "!").filter(s -> s.length() == 2);
        System.out.println(some.orElse("none") + Optional.ofNullable((String) null).map(String::length).orElseGet(() -> -1) + some.isPresent() + some);
        Supplier<Supplier<String>> ss = () -> () -> "nested supplier";
        System.out.println(ss.get().get());
        char ch = 'x';
        long big = 1L << 40;
        Supplier<String> captured = () -> ch + " " + big + " " + d.hello();
        System.out.println(captured.get());
    }

    interface Callback {
        int call(int a, int b);
    }

    static class Recursive {
        final Function<Integer, Long> f = n -> n <= 1 ? 1L : n * this.f.apply(n - 1);
    }
}
