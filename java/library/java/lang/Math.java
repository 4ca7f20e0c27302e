package java.lang;

/** The functions of ints and longs. */
public final class Math {
    private Math() {
    }

    private static ArithmeticException overflow(String type) {
        return new ArithmeticException(type + " overflow");
    }

    public static int max(int a, int b) {
        return a >= b ? a : b;
    }

    public static long max(long a, long b) {
        return a >= b ? a : b;
    }

    public static int min(int a, int b) {
        return a <= b ? a : b;
    }

    public static long min(long a, long b) {
        return a <= b ? a : b;
    }

    public static int abs(int n) {
        return n < 0 ? -n : n;
    }

    public static long abs(long n) {
        return n < 0 ? -n : n;
    }

    public static int absExact(int n) {
        if (n == Integer.MIN_VALUE) {
            throw new ArithmeticException("Overflow to represent absolute value of Integer.MIN_VALUE");
        }
        return abs(n);
    }

    public static long absExact(long n) {
        if (n == Long.MIN_VALUE) {
            throw new ArithmeticException("Overflow to represent absolute value of Long.MIN_VALUE");
        }
        return abs(n);
    }

    // ---- division

    public static int floorDiv(int a, int b) {
        int quotient = a / b;
        return (a ^ b) < 0 && quotient * b != a ? quotient - 1 : quotient;
    }

    public static long floorDiv(long a, int b) {
        return floorDiv(a, (long) b);
    }

    public static long floorDiv(long a, long b) {
        long quotient = a / b;
        return (a ^ b) < 0 && quotient * b != a ? quotient - 1 : quotient;
    }

    public static int floorMod(int a, int b) {
        int rest = a % b;
        return rest != 0 && (rest ^ b) < 0 ? rest + b : rest;
    }

    public static int floorMod(long a, int b) {
        return (int) floorMod(a, (long) b);
    }

    public static long floorMod(long a, long b) {
        long rest = a % b;
        return rest != 0 && (rest ^ b) < 0 ? rest + b : rest;
    }

    public static int ceilDiv(int a, int b) {
        return -floorDiv(-a, b);
    }

    public static int clamp(long n, int least, int most) {
        return (int) min(most, max(n, least));
    }

    // ---- exact arithmetic

    public static int addExact(int a, int b) {
        int sum = a + b;
        if (((a ^ sum) & (b ^ sum)) < 0) {
            throw overflow("integer");
        }
        return sum;
    }

    public static long addExact(long a, long b) {
        long sum = a + b;
        if (((a ^ sum) & (b ^ sum)) < 0) {
            throw overflow("long");
        }
        return sum;
    }

    public static int subtractExact(int a, int b) {
        int difference = a - b;
        if (((a ^ b) & (a ^ difference)) < 0) {
            throw overflow("integer");
        }
        return difference;
    }

    public static long subtractExact(long a, long b) {
        long difference = a - b;
        if (((a ^ b) & (a ^ difference)) < 0) {
            throw overflow("long");
        }
        return difference;
    }

    public static int multiplyExact(int a, int b) {
        long product = (long) a * b;
        if ((int) product != product) {
            throw overflow("integer");
        }
        return (int) product;
    }

    public static long multiplyExact(long a, int b) {
        return multiplyExact(a, (long) b);
    }

    public static long multiplyExact(long a, long b) {
        long product = a * b;
        if (multiplyHigh(a, b) != product >> 63) {
            throw overflow("long");
        }
        return product;
    }

    public static int incrementExact(int n) {
        return addExact(n, 1);
    }

    public static long incrementExact(long n) {
        return addExact(n, 1L);
    }

    public static int decrementExact(int n) {
        return subtractExact(n, 1);
    }

    public static long decrementExact(long n) {
        return subtractExact(n, 1L);
    }

    public static int negateExact(int n) {
        return subtractExact(0, n);
    }

    public static long negateExact(long n) {
        return subtractExact(0L, n);
    }

    public static int toIntExact(long n) {
        if ((int) n != n) {
            throw overflow("integer");
        }
        return (int) n;
    }

    public static long multiplyFull(int a, int b) {
        return (long) a * b;
    }

    public static long multiplyHigh(long a, long b) {
        long low = (a & 0xffffffffL) * (b & 0xffffffffL);
        long middle = (a >> 32) * (b & 0xffffffffL) + (low >>> 32);
        long other = (a & 0xffffffffL) * (b >> 32) + (middle & 0xffffffffL);
        return (a >> 32) * (b >> 32) + (middle >> 32) + (other >> 32);
    }

    public static long unsignedMultiplyHigh(long a, long b) {
        return multiplyHigh(a, b) + (a >> 63 & b) + (b >> 63 & a);
    }
}
