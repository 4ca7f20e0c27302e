import java.util.*;
import java.util.function.*;

/** Generic classes, bounded types, wildcards, bridges. */
public class Generics {
    static class Pair<A extends Comparable<A>, B> implements Comparable<Pair<A, B>> {
        final A first;
        final B second;

        Pair(A first, B second) {
            this.first = first;
            this.second = second;
        }

        static <X extends Comparable<X>, Y> Pair<X, Y> of(X x, Y y) {
            return new Pair<>(x, y);
        }

        <C> Pair<A, C> with(Function<? super B, ? extends C> f) {
            return new Pair<>(first, f.apply(second));
        }

        @Override
        public int compareTo(Pair<A, B> o) {
            return first.compareTo(o.first);
        }

        @Override
        public String toString() {
            return "(" + first + ", " + second + ")";
        }
    }

    static class Node<T> {
        T value;
        Node<T> next;

        Node(T value, Node<T> next) {
            this.value = value;
            this.next = next;
        }
    }

    static class Stack<T> implements Iterable<T> {
        private Node<T> top;
        private int size;

        void push(T t) {
            top = new Node<>(t, top);
            size++;
        }

        T pop() {
            if (top == null) {
                throw new NoSuchElementException("empty stack");
            }
            T t = top.value;
            top = top.next;
            size--;
            return t;
        }

        @Override
        public Iterator<T> iterator() {
            return new Iterator<T>() {
                Node<T> at = top;

                public boolean hasNext() {
                    return at != null;
                }

                public T next() {
                    T t = at.value;
                    at = at.next;
                    return t;
                }
            };
        }
    }

    static <T extends Comparable<? super T>> T max(Collection<? extends T> all) {
        Iterator<? extends T> i = all.iterator();
        T best = i.next();
        while (i.hasNext()) {
            T t = i.next();
            if (t.compareTo(best) > 0) {
                best = t;
            }
        }
        return best;
    }

    static long total(List<? extends Number> list) {
        long sum = 0;
        for (Number n : list) {
            sum += n.longValue();
        }
        return sum;
    }

    static void fill(List<? super Integer> list) {
        for (int i = 0; i < 3; i++) {
            list.add(i);
        }
    }

    @SafeVarargs
    static <T> List<T> listOf(T... all) {
        return new ArrayList<>(Arrays.asList(all));
    }

    public static void main(String[] args) {
        List<Pair<String, Integer>> pairs = listOf(Pair.of("b", 2), Pair.of("a", 1), Pair.of("c", 3));
        Collections.sort(pairs);
        System.out.println(pairs + " " + max(pairs) + " " + pairs.get(0).with(x -> x + "!"));
        Stack<String> s = new Stack<>();
        for (String w : "one two three".split(" ")) {
            s.push(w);
        }
        for (String w : s) {
            System.out.print(w + " ");
        }
        System.out.println(s.pop() + s.size);
        try {
            new Stack<Integer>().pop();
        } catch (NoSuchElementException e) {
            System.out.println(e.getMessage());
        }
        System.out.println(total(Arrays.asList(1, 2L, (short) 3, (byte) 4)));
        List<Object> any = new ArrayList<>();
        fill(any);
        any.add("text");
        System.out.println(any);
        Map<String, Function<Integer, Integer>> ops = new LinkedHashMap<>();
        ops.put("double", x -> x * 2);
        ops.put("square", x -> x * x);
        ops.forEach((k, f) -> System.out.println(k + " " + f.apply(7)));
        s.forEach(System.out::println);
        Object raw = listOf(1, 2);
        try {
            @SuppressWarnings("unchecked")
            List<String> wrong = (List<String>) raw;
            String bad = wrong.get(0);
            System.out.println(bad);
        } catch (ClassCastException e) {
            System.out.println("class cast");
        }
    }
}
