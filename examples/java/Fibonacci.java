// Needs: exceptions

/** Fibonacci numbers: added until a long overflows, and by powers of a matrix modulo a number, where 0 is refused. */
public class Fibonacci {
    static long sum(long a, long b) {
        long sum = a + b;
        if (((a ^ sum) & (b ^ sum)) < 0) throw new ArithmeticException("overflow");
        return sum;
    }

    static void added() {
        long last = 0, number = 1, index = 1;
        try {
            while (true) {
                long next = sum(last, number);
                last = number;
                number = next;
                index++;
            }
        } catch (ArithmeticException e) {
            System.out.print(index);
            System.out.print(" ");
            System.out.print(number);
            System.out.print(", then ");
            System.out.println(e.getMessage());
            System.out.println(last + number);
        }
    }

    static long[][] product(long[][] a, long[][] b, long modulus) {
        long[][] c = new long[2][2];
        for (int i = 0; i < 2; i++) {
            for (int j = 0; j < 2; j++) {
                for (int k = 0; k < 2; k++) c[i][j] = (c[i][j] + a[i][k] * b[k][j]) % modulus;
            }
        }
        return c;
    }

    static long modulo(long index, long modulus) {
        long[][] power = {{1, 0}, {0, 1}}, square = {{1, 1}, {1, 0}};
        for (long left = index; left > 0; left >>= 1) {
            if ((left & 1) == 1) power = product(power, square, modulus);
            square = product(square, square, modulus);
        }
        return power[0][1];
    }

    public static void main(String[] words) {
        added();
        System.out.println(modulo(92, 1000000007));
        System.out.println(modulo(1000000000000000000L, 1000000007L));
        try {
            System.out.println(modulo(92, 0));
        } catch (ArithmeticException e) {
            System.out.println("no number modulo 0");
        }
    }
}
