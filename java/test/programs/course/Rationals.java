import java.util.*;

/** Fractions and polynomials with whole coefficients. */
public class Rationals {
    static final class Fraction extends Number implements Comparable<Fraction> {
        private final long num, den;

        Fraction(long num, long den) {
            if (den == 0) {
                throw new ArithmeticException("denominator is 0");
            }
            long g = gcd(Math.abs(num), Math.abs(den)) * (den < 0 ? -1 : 1);
            this.num = num / g;
            this.den = den / g;
        }

        static long gcd(long a, long b) {
            return b == 0 ? Math.max(a, 1) : gcd(b, a % b);
        }

        Fraction plus(Fraction o) {
            return new Fraction(num * o.den + o.num * den, den * o.den);
        }

        Fraction times(Fraction o) {
            return new Fraction(num * o.num, den * o.den);
        }

        @Override
        public int compareTo(Fraction o) {
            return Long.compare(num * o.den, o.num * den);
        }

        @Override
        public boolean equals(Object o) {
            return o instanceof Fraction && compareTo((Fraction) o) == 0;
        }

        @Override
        public int hashCode() {
            return Objects.hash(num, den);
        }

        @Override
        public int intValue() {
            return (int) longValue();
        }

        @Override
        public long longValue() {
            return num / den;
        }

        @Override
        public float floatValue() {
            throw new UnsupportedOperationException();
        }

        @Override
        public double doubleValue() {
            throw new UnsupportedOperationException();
        }

        @Override
        public String toString() {
            return den == 1 ? "" + num : num + "/" + den;
        }
    }

    static int[] multiply(int[] a, int[] b) {
        int[] c = new int[a.length + b.length - 1];
        for (int i = 0; i < a.length; i++) {
            for (int j = 0; j < b.length; j++) {
                c[i + j] += a[i] * b[j];
            }
        }
        return c;
    }

    static String show(int[] p) {
        StringBuilder s = new StringBuilder();
        for (int i = p.length - 1; i >= 0; i--) {
            if (p[i] != 0) {
                s.append(p[i] < 0 ? " - " : s.length() > 0 ? " + " : "").append(Math.abs(p[i]) == 1 && i > 0 ? "" : "" + Math.abs(p[i])).append(i > 1 ? "x^" + i : i == 1 ? "x" : "");
            }
        }
        return s.toString();
    }

    public static void main(String[] args) {
        Fraction sum = new Fraction(0, 1);
        for (int i = 1; i <= 8; i++) {
            sum = sum.plus(new Fraction(1, i * (i + 1)));
        }
        System.out.println(sum + " " + sum.longValue() + " " + new Fraction(6, -4) + " " + new Fraction(1, 2).times(new Fraction(2, 3)) + " " + new Fraction(2, 4).equals(new Fraction(1, 2)) + " " + new Fraction(7, 2).intValue());
        List<Fraction> l = new ArrayList<>(Arrays.asList(new Fraction(1, 2), new Fraction(1, 3), new Fraction(-1, 4)));
        Collections.sort(l);
        System.out.println(l + " " + Collections.max(l));
        try {
            new Fraction(1, 0);
        } catch (ArithmeticException e) {
            System.out.println(e.getMessage());
        }
        int[] p = {1};
        for (int i = 0; i < 4; i++) {
            p = multiply(p, new int[] {-1, 1});
        }
        System.out.println(show(p) + "; " + show(multiply(new int[] {1, 2}, new int[] {0, 0, 3})));
    }
}
