/** Java 5 classes: covariant results, bridges, enums, static imports of constants, inner classes, finally. */
public class Inheritance {
    enum Suit { CLUBS, HEARTS { @Override String sign() { return "<3"; } };
        String sign() {
            return name().substring(0, 1);
        }
    }

    abstract static class Animal implements Comparable<Animal> {
        abstract String sound();

        Animal child() {
            return this;
        }

        public int compareTo(Animal o) {
            return sound().compareTo(o.sound());
        }
    }

    static class Dog extends Animal {
        @Override
        String sound() {
            return "woof";
        }

        @Override
        Dog child() {
            return new Dog() {
                @Override
                String sound() {
                    return "yip";
                }
            };
        }
    }

    static class Cat extends Animal {
        private int lives = 9;

        @Override
        String sound() {
            return "meow" + --lives;
        }
    }

    private static int finallyCount;

    private static int tryIt(int n) {
        try {
            if (n == 0) {
                throw new IllegalArgumentException("zero");
            }
            return 10 / n;
        } catch (IllegalArgumentException e) {
            return -1;
        } finally {
            finallyCount++;
        }
    }

    public static void main(String[] args) {
        Animal[] all = {new Dog(), new Cat(), new Dog().child()};
        java.util.Arrays.sort(all);
        for (Animal a : all) {
            System.out.print(a.sound() + " " + a.child().sound() + "; ");
        }
        System.out.println();
        for (Suit s : Suit.values()) {
            switch (s) {
                case CLUBS:
                    System.out.print("clubs " + s.sign() + " ");
                    break;
                case HEARTS:
                    System.out.println("hearts " + s.sign());
                    break;
            }
        }
        System.out.println(tryIt(0) + " " + tryIt(3) + " " + finallyCount + " " + Suit.valueOf("CLUBS").compareTo(Suit.HEARTS));
        long l = 1;
        for (int i = 1; i <= 20; i++) {
            l *= i;
        }
        System.out.println(l + " " + (int) l + " " + Long.toHexString(l));
        StringBuilder b = new StringBuilder();
        outer:
        for (int i = 0;; i++) {
            for (int j = 0; j < i; j++) {
                if (i * j > 12) {
                    break outer;
                }
                b.append(i * j).append(',');
            }
        }
        System.out.println(b);
    }
}
