import java.util.*;

/** Iterators of one's own, fail-fast ones, list iterators, ranges, merging. */
public class Iterators {
    static Iterable<Integer> range(int from, int to) {
        return () -> new Iterator<Integer>() {
            private int at = from;

            @Override
            public boolean hasNext() {
                return at < to;
            }

            @Override
            public Integer next() {
                if (!hasNext()) {
                    throw new NoSuchElementException("after " + (to - 1));
                }
                return at++;
            }
        };
    }

    static <T extends Comparable<T>> List<T> merge(Iterator<T> a, Iterator<T> b) {
        List<T> out = new ArrayList<>();
        T x = a.hasNext() ? a.next() : null, y = b.hasNext() ? b.next() : null;
        while (x != null || y != null) {
            if (y == null || x != null && x.compareTo(y) <= 0) {
                out.add(x);
                x = a.hasNext() ? a.next() : null;
            } else {
                out.add(y);
                y = b.hasNext() ? b.next() : null;
            }
        }
        return out;
    }

    static class Ring<T> extends AbstractList<T> {
        private final Object[] items;
        private int start, size;

        Ring(int room) {
            items = new Object[room];
        }

        @Override
        public boolean add(T t) {
            items[(start + size) % items.length] = t;
            if (size < items.length) {
                size++;
            } else {
                start = (start + 1) % items.length;
            }
            modCount++;
            return true;
        }

        @Override
        @SuppressWarnings("unchecked")
        public T get(int i) {
            return (T) items[(start + check(i)) % items.length];
        }

        private int check(int i) {
            if (i < 0 || i >= size) {
                throw new IndexOutOfBoundsException("Index: " + i + ", Size: " + size);
            }
            return i;
        }

        @Override
        public int size() {
            return size;
        }
    }

    public static void main(String[] args) {
        int sum = 0;
        for (int i : range(1, 5)) {
            for (int j : range(i, 5)) {
                sum += i * j;
            }
        }
        System.out.println(sum + " " + merge(range(0, 4).iterator(), range(2, 6).iterator()));
        Iterator<Integer> it = range(0, 1).iterator();
        it.next();
        try {
            it.next();
        } catch (NoSuchElementException e) {
            System.out.println(e.getMessage());
        }
        List<Integer> l = new ArrayList<>(Arrays.asList(1, 2, 3, 4));
        try {
            for (Integer i : l) {
                if (i == 2) {
                    l.remove(i);
                }
            }
        } catch (ConcurrentModificationException e) {
            System.out.println("changed " + l);
        }
        ListIterator<Integer> li = l.listIterator(l.size());
        StringBuilder b = new StringBuilder();
        while (li.hasPrevious()) {
            b.append(li.previousIndex()).append('=').append(li.previous()).append(' ');
        }
        System.out.println(b);
        try {
            li.remove();
            li.remove();
        } catch (IllegalStateException e) {
            System.out.println("twice " + l);
        }
        Ring<String> r = new Ring<>(3);
        for (String s : "a b c d e".split(" ")) {
            r.add(s);
        }
        System.out.println(r + " " + r.indexOf("d") + " " + r.contains("a") + " " + r.subList(1, 3) + " " + new ArrayList<>(r) + r.hashCode());
        try {
            r.get(3);
        } catch (IndexOutOfBoundsException e) {
            System.out.println(e.getMessage());
        }
        try {
            r.remove(0);
        } catch (UnsupportedOperationException e) {
            System.out.println("no removal");
        }
        Map<String, Integer> m = new TreeMap<>();
        m.put("x", 1);
        m.put("y", 2);
        for (Map.Entry<String, Integer> e : m.entrySet()) {
            e.setValue(e.getValue() * 10);
        }
        Enumeration<Integer> en = Collections.enumeration(l);
        System.out.println(m + " " + en.nextElement() + Collections.list(en));
    }
}
