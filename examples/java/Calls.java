/** Calls: overridden, overloaded, private and super methods, constructors that call, and what interfaces add. */
public class Calls {
    static class A {
        A() {
            System.out.print("A");
            begin();
        }

        void begin() {
            System.out.println(" begins");
        }

        int m() {
            return 1;
        }

        private int secret() {
            return 10;
        }

        int callsSecret() {
            return secret() + this.m();
        }

        static int s() {
            return 5;
        }
    }

    static class B extends A {
        final int given;

        B() {
            this(4);
            System.out.println("B made");
        }

        B(int given) {
            super();
            this.given = given;
        }

        void begin() {
            System.out.print(" overridden, with ");
            System.out.println(given);
        }

        int m() {
            return 2 + 10 * super.m();
        }

        private int secret() {
            return 20;
        }

        int ownSecret() {
            return secret();
        }
    }

    static class C extends B {
        int m() {
            return 3 + 10 * super.m();
        }

        int secret() {
            return 30;
        }

        static int s() {
            return 6;
        }
    }

    static String which(int x) {
        return "int";
    }

    static String which(char x) {
        return "char";
    }

    static String which(Object x) {
        return "Object";
    }

    static String which(String x) {
        return "String";
    }

    static String which(int[] x) {
        return "int[]";
    }

    interface UpAndDown {
        int up();

        int down();
    }

    /** Leaves both methods of its interface to the class below. */
    static abstract class Lift implements UpAndDown {
        int floor;

        int trip() {
            return up() * 100 + up() * 10 + down();
        }
    }

    static class Fast extends Lift {
        public int up() {
            return floor += 2;
        }

        public int down() {
            return floor -= 1;
        }
    }

    /** Many parameters, in order. */
    static int digits(int a, int b, boolean c, char d, byte e, short f, int[] g, int h) {
        return ((((((a * 10 + b) * 10 + (c ? 1 : 0)) * 10 + d) * 10 + e) * 10 + f) * 10 + g[0]) * 10 + h;
    }

    static int next;

    static int in(int value) {
        System.out.print(value);
        System.out.print(" ");
        return next++ * value;
    }

    public static void main(String[] words) {
        A a = new A(), b = new B(), c = new C();
        System.out.println(a.m() + 100 * b.m() + 10000 * c.m());
        System.out.println(a.callsSecret() + 100 * b.callsSecret() + 10000 * c.callsSecret());
        System.out.println(((B) c).ownSecret() + ((C) c).secret());
        System.out.println(A.s() * 100 + B.s() * 10 + C.s());
        System.out.println(which(1));
        System.out.println(which('1'));
        System.out.println(which("1"));
        System.out.println(which((Object) "1"));
        System.out.println(which((byte) 1));
        System.out.println(which(new int[1]));
        System.out.println(which(new int[1][]));
        Lift lift = new Fast();
        System.out.println(lift.trip());
        UpAndDown both = lift;
        System.out.println(both.up() * 10 + both.down());
        System.out.println(digits(1, 2, true, (char) 4, (byte) 5, (short) 6, new int[] {7}, 8));
        System.out.println(in(1) + in(20) * in(300) - in(4000));
    }
}
