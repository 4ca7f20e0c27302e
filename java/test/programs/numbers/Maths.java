/** Whole-number functions of Math, and what they throw. */
public class Maths {
    interface Compute {
        long run();
    }

    static void show(String name, Compute c) {
        try {
            System.out.println(name + " = " + c.run());
        } catch (ArithmeticException e) {
            System.out.println(name + ": " + e.getMessage());
        }
    }

    static long gcd(long a, long b) {
        return b == 0 ? Math.abs(a) : gcd(b, a % b);
    }

    static long power(long base, int exponent, long modulus) {
        long result = 1;
        for (long b = base % modulus; exponent > 0; exponent >>= 1, b = b * b % modulus) {
            if ((exponent & 1) == 1) {
                result = result * b % modulus;
            }
        }
        return result;
    }

    public static void main(String[] args) {
        show("max", () -> Math.max(3, 7) + Math.min(3L, 7L) + Math.abs(-5));
        show("floorDiv", () -> Math.floorDiv(-7, 2));
        show("floorMod", () -> Math.floorMod(-7, 3));
        show("floorMod long", () -> Math.floorMod(-7L, 3L));
        show("addExact", () -> Math.addExact(Integer.MAX_VALUE, 1));
        show("addExact long", () -> Math.addExact(Long.MAX_VALUE, 1L));
        show("subtractExact", () -> Math.subtractExact(Integer.MIN_VALUE, 1));
        show("multiplyExact", () -> Math.multiplyExact(1 << 20, 1 << 12));
        show("multiplyExact long", () -> Math.multiplyExact(1L << 40, 1L << 30));
        show("multiplyExact fine", () -> Math.multiplyExact(-3L, 5L));
        show("incrementExact", () -> Math.incrementExact(Integer.MAX_VALUE));
        show("decrementExact", () -> Math.decrementExact(Long.MIN_VALUE));
        show("negateExact", () -> Math.negateExact(Integer.MIN_VALUE));
        show("toIntExact", () -> Math.toIntExact(1L << 31));
        show("division", () -> 1 / (args.length * 0));
        show("remainder", () -> 1L % (args.length * 0L));
        show("MIN / -1", () -> Integer.MIN_VALUE / -1);
        show("shifts", () -> (-8 >> 1) + (-8 >>> 28) + (1 << 33) + (1L << 33));
        show("gcd", () -> gcd(1071, 462));
        show("power", () -> power(7, 560, 561));
        StringBuilder primes = new StringBuilder();
        boolean[] composite = new boolean[60];
        for (int i = 2; i < composite.length; i++) {
            if (!composite[i]) {
                primes.append(i).append(' ');
                for (int j = i * i; j < composite.length; j += i) {
                    composite[j] = true;
                }
            }
        }
        System.out.println(primes.toString().trim());
        long a = 0, b = 1;
        for (int i = 0; i < 90; i++) {
            long t = a + b;
            a = b;
            b = t;
        }
        System.out.println("fib " + a);
    }
}
