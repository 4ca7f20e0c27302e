// Majors: 49 50

/** Java 5: type parameters with their casts and bridges, results of narrower types, lists of words, loops over arrays. */
public class Generics {
    static class Box<T> {
        private T item;

        Box(T item) {
            this.item = item;
        }

        T get() {
            return item;
        }

        Box<T> copy() {
            return new Box<T>(item);
        }
    }

    /** A box whose copy is a counted box too. */
    static class Counted<T> extends Box<T> {
        final int copies;

        Counted(T item, int copies) {
            super(item);
            this.copies = copies;
        }

        Counted<T> copy() {
            return new Counted<T>(get(), copies + 1);
        }
    }

    static class Point implements Ordered<Point> {
        final int x;

        Point(int x) {
            this.x = x;
        }

        public int compareTo(Point other) {
            return x - other.x;
        }
    }

    interface Ordered<T> {
        int compareTo(T other);
    }

    static <T extends Ordered<T>> T greatest(T first, T... others) {
        T greatest = first;
        for (T other : others) {
            if (other.compareTo(greatest) > 0) greatest = other;
        }
        return greatest;
    }

    static int sum(int... numbers) {
        int sum = 0;
        for (int number : numbers) sum += number;
        return sum;
    }

    public static void main(String... words) {
        Box<String> box = new Box<String>("a text in a box");
        System.out.println(box.copy().get());
        Box<String[]> counted = new Counted<String[]>(new String[] {"x", "y", "z"}, 0);
        Box<String[]> again = counted.copy().copy();
        System.out.println(((Counted<String[]>) again).copies);
        System.out.println(again.get().length);
        System.out.println(greatest(new Point(3), new Point(12), new Point(-4)).x);
        System.out.println(greatest(new Point(3)).x);
        System.out.println(sum() + sum(1) + sum(1, 2, 3));
        for (String text : again.get()) System.out.print(text);
        System.out.println();
    }
}
