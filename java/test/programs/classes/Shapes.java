import java.util.*;

/** Inheritance, abstract classes, interfaces, equals and hashCode, clone, toString. */
public class Shapes {
    interface Scalable {
        Shape scale(int factor);
    }

    abstract static class Shape implements Comparable<Shape>, Scalable, Cloneable {
        private static int made;
        protected final int id = ++made;

        abstract int area();

        @Override
        public int compareTo(Shape o) {
            return Integer.compare(area(), o.area());
        }

        @Override
        public String toString() {
            return getClass().getSimpleName() + "#" + id + "[" + area() + "]";
        }

        @Override
        protected Shape clone() {
            try {
                return (Shape) super.clone();
            } catch (CloneNotSupportedException e) {
                throw new AssertionError(e);
            }
        }
    }

    static class Rect extends Shape {
        final int w, h;
        int[] marks = {1, 2, 3};

        Rect(int w, int h) {
            this.w = w;
            this.h = h;
        }

        int area() {
            return w * h;
        }

        public Shape scale(int f) {
            return new Rect(w * f, h * f);
        }

        @Override
        public boolean equals(Object o) {
            return o instanceof Rect && ((Rect) o).w == w && ((Rect) o).h == h;
        }

        @Override
        public int hashCode() {
            return Objects.hash(w, h);
        }
    }

    static final class Square extends Rect {
        Square(int side) {
            super(side, side);
        }

        @Override
        public Square scale(int f) {
            return new Square(w * f);
        }
    }

    static class Plain {
    }

    class Inner {
        final int v = outer * 2;

        class Deeper {
            int sum() {
                return v + outer;
            }
        }
    }

    private final int outer = 21;
    static String log = "";

    static {
        log += "static;";
    }

    {
        log += "instance;";
    }

    Shapes() {
        log += "constructor;";
    }

    public static void main(String[] args) throws Exception {
        List<Shape> all = new ArrayList<>(Arrays.asList(new Rect(4, 5), new Square(3), new Rect(1, 2)));
        Collections.sort(all);
        System.out.println(all);
        System.out.println(all.get(0).scale(3) + " " + all.get(1).scale(2));
        System.out.println(new Rect(2, 2).equals(new Square(2)) + " " + new Rect(2, 2).hashCode() + " " + new HashSet<>(Arrays.asList(new Rect(1, 1), new Rect(1, 1), new Square(1))).size());
        Rect r = (Rect) new Rect(7, 8).clone();
        System.out.println(r.area() + " " + r.marks.length);
        int[][] grid = {{1, 2}, {3, 4}};
        int[][] copy = grid.clone();
        copy[0][0] = 9;
        copy[1] = new int[] {5};
        System.out.println(Arrays.deepToString(grid) + Arrays.deepToString(copy));
        Plain p = new Plain();
        System.out.println(p.equals(p) + " " + p.equals(new Plain()) + " " + (p.hashCode() == p.hashCode()) + " " + p.toString().startsWith("Shapes$Plain@"));
        Shapes s = new Shapes();
        Shapes.Inner in = s.new Inner();
        System.out.println(in.v + " " + in.new Deeper().sum() + " " + log);
        Object o = new Object() {
            int n = 3;

            @Override
            public String toString() {
                return "anonymous " + n + s.outer;
            }
        };
        System.out.println(o + " [" + o.getClass().getSimpleName() + "] " + o.getClass().getName());
        class Local {
            int twice() {
                return s.outer * 2;
            }
        }
        System.out.println(new Local().twice() + " " + new Local().getClass().getName() + " " + Local.class.getSimpleName());
        System.out.println((all.get(0) instanceof Scalable) + " " + Shape.class.isInstance(r) + " " + Rect.class.cast(r).w + " " + Rect.class.getSuperclass().getName() + " " + Scalable.class.isInterface() + " " + int[].class.getName() + " " + String[].class.getSimpleName());
        try {
            Square.class.cast(r);
        } catch (ClassCastException e) {
            System.out.println(e.getMessage());
        }
        System.out.println(r.getClass() == Rect.class);
        System.out.println("class is " + r.getClass() + " " + Scalable.class);
    }
}
