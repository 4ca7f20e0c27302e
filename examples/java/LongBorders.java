// Needs: exceptions

/** Arithmetic at the ends of the longs: wrapping, division, also by 0, shifts, narrowing, comparisons. */
public class LongBorders {
    static final long LEAST = -9223372036854775808L, MOST = 9223372036854775807L;

    static void show(String what, long value) {
        System.out.print(what);
        System.out.println(value);
    }

    static void wraps(long least, long most) {
        show("least * most ", least * most);
        show("-least ", -least);
        long up = most;
        show("most++ ", up++);
        show("up ", up);
    }

    static void divides(long a, long b) {
        try {
            System.out.print(a / b);
            System.out.print(" rest ");
            System.out.println(a % b);
        } catch (ArithmeticException e) {
            show("no quotient of ", a);
        }
    }

    static void shifts(long one, long least, int by) {
        System.out.print(one << by);
        show(" ", least >> by);
        show("and ", least >>> by);
    }

    static void narrows(long value) {
        System.out.print((int) value);
        show(" ", (byte) value + (short) value + (char) value);
    }

    static int compared(long a, long b) {
        int bits = (a < b ? 1 : 0) + (a <= b ? 2 : 0) + (a == b ? 4 : 0);
        return bits + (a != b ? 8 : 0) + (a > b ? 16 : 0) + (a >= b ? 32 : 0);
    }

    public static void main(String[] words) {
        long[] values = {LEAST, -4294967296L, -7, -1, 0, 1, 2147483648L, MOST};
        wraps(values[0], values[7]);
        for (int by = -65; by <= 130; by += 39) shifts(values[5], values[0], by);
        for (int i = 0; i < values.length; i++) {
            narrows(values[i]);
            divides(values[i], values[7 - i]);
            divides(values[i], values[3 + i % 3]);
            long bits = 0;
            for (int j = 0; j < values.length; j++) bits = bits << 6 | compared(values[i], values[j]);
            show("compared ", bits);
        }
    }
}
