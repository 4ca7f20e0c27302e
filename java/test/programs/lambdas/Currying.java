import java.util.function.*;

/** Functions that make functions. */
public class Currying {
    static <A, B, C> Function<A, Function<B, C>> curry(BiFunction<A, B, C> f) {
        return a -> b -> f.apply(a, b);
    }

    static <A, B, C> Function<A, C> compose(Function<? super A, ? extends B> f, Function<? super B, ? extends C> g) {
        return a -> g.apply(f.apply(a));
    }

    static <T> UnaryOperator<T> times(int n, UnaryOperator<T> f) {
        return n == 0 ? x -> x : x -> times(n - 1, f).apply(f.apply(x));
    }

    static IntSupplier counter() {
        int[] n = new int[1];
        return () -> ++n[0];
    }

    interface Church {
        IntUnaryOperator apply(IntUnaryOperator f);

        static Church of(int n) {
            return f -> x -> {
                int r = x;
                for (int i = 0; i < n; i++) {
                    r = f.applyAsInt(r);
                }
                return r;
            };
        }

        default Church plus(Church o) {
            return f -> this.apply(f).compose(o.apply(f));
        }

        default int value() {
            return apply(x -> x + 1).applyAsInt(0);
        }
    }

    public static void main(String[] args) {
        System.out.println(curry((Integer a, Integer b) -> a * b).apply(6).apply(7));
        System.out.println(compose((String s) -> s.length(), (Integer n) -> "length " + n).apply("hello"));
        System.out.println(times(5, (Integer x) -> x * 2).apply(1) + times(3, (String s) -> s + "!").apply("hey"));
        IntSupplier a = counter(), b = counter();
        System.out.println(a.getAsInt() + a.getAsInt() * 10 + b.getAsInt() * 100);
        System.out.println(Church.of(3).plus(Church.of(4)).value());
        BinaryOperator<Function<Integer, Integer>> both = (f, g) -> f.andThen(g);
        System.out.println(both.apply(x -> x + 1, x -> x * 10).apply(4));
        Supplier<Supplier<Supplier<String>>> deep = () -> () -> () -> "deep";
        System.out.println(deep.get().get().get());
        Function<Integer, Predicate<Integer>> above = limit -> x -> x > limit;
        System.out.println(above.apply(5).test(6) + " " + above.apply(5).negate().test(6));
    }
}
