/** Interfaces that extend others, abstract classes that leave their methods to classes below, casts and tests. */
public class Shapes {
    interface Named {
        String name();
    }

    interface Measured {
        int area();
    }

    interface Shape extends Named, Measured {
        int corners();
    }

    static abstract class Base implements Shape {
        protected final int size;

        Base(int size) {
            this.size = size;
        }

        public int corners() {
            return 4;
        }

        /** Calls methods that only the interface declares. */
        int worth() {
            return area() * 10 + corners();
        }
    }

    static class Square extends Base {
        Square(int size) {
            super(size);
        }

        public int area() {
            return size * size;
        }

        public String name() {
            return "square";
        }
    }

    static class Oblong extends Square {
        private final int width;

        Oblong(int size, int width) {
            super(size);
            this.width = width;
        }

        public int area() {
            return super.area() / size * width;
        }

        public String name() {
            return "oblong";
        }
    }

    static class Disc extends Base implements Cloneable {
        Disc(int size) {
            super(size);
        }

        public int area() {
            return size * size * 355 / 113;
        }

        public int corners() {
            return 0;
        }

        public String name() {
            return "disc";
        }

        int worth() {
            return super.worth() + 1;
        }
    }

    static void show(Object thing) {
        if (thing instanceof Named) System.out.print(((Named) thing).name());
        else System.out.print("unnamed");
        if (thing instanceof Shape) {
            Shape shape = (Shape) thing;
            System.out.print(", corners ");
            System.out.print(shape.corners());
            Measured measured = shape;
            System.out.print(", area ");
            System.out.print(measured.area());
        }
        if (thing instanceof Base) {
            System.out.print(", worth ");
            System.out.print(((Base) thing).worth());
        }
        System.out.println(thing instanceof Cloneable ? ", cloneable" : "");
    }

    public static void main(String[] words) {
        Object[] things = {new Square(3), new Oblong(3, 7), new Disc(5), new Object(), "a text", null, words};
        for (int i = 0; i < things.length; i++) show(things[i]);
        Shape[] shapes = {new Disc(1), new Oblong(2, 3)};
        int sum = 0;
        for (int i = 0; i < shapes.length; i++) sum += shapes[i].area();
        System.out.println(sum);
        System.out.println(((Object) shapes) instanceof Named[] ? "shapes are named" : "shapes aren't named");
        System.out.println(((Object) shapes) instanceof Base[] ? "they have a base" : "they may have no base");
    }
}
