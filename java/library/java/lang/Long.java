package java.lang;

/** The box of a long. */
public final class Long extends Number implements Comparable<Long> {
    public static final long MIN_VALUE = 0x8000000000000000L;
    public static final long MAX_VALUE = 0x7fffffffffffffffL;
    public static final int SIZE = 64;
    public static final int BYTES = 8;
    public static final Class<Long> TYPE = null;

    private final long value;

    public Long(long value) {
        this.value = value;
    }

    public Long(String s) {
        this(parseLong(s));
    }

    /** The boxes of the small longs; made at the first use. */
    private static final class Cache {
        static final Long[] ALL = new Long[256];

        static {
            for (int i = 0; i < 256; i++) {
                ALL[i] = new Long(i - 128);
            }
        }
    }

    public static Long valueOf(long n) {
        return n >= -128 && n < 128 ? Cache.ALL[(int) n + 128] : new Long(n);
    }

    public static Long valueOf(String s) {
        return valueOf(parseLong(s, 10));
    }

    public static Long valueOf(String s, int radix) {
        return valueOf(parseLong(s, radix));
    }

    // ---- texts

    public static long parseLong(String s) {
        return parseLong(s, 10);
    }

    public static long parseLong(String s, int radix) {
        return Digits.parse(s, radix, MIN_VALUE, MAX_VALUE);
    }

    public static long parseUnsignedLong(String s) {
        return parseUnsignedLong(s, 10);
    }

    public static long parseUnsignedLong(String s, int radix) {
        if (s.startsWith("-")) {
            throw new NumberFormatException("Illegal leading minus sign on unsigned string " + s + ".");
        }
        java.math.BigInteger n = new java.math.BigInteger(s, radix);
        if (n.bitLength() > 64) {
            throw new NumberFormatException("String value " + s + " exceeds range of unsigned long.");
        }
        return n.longValue();
    }

    public static Long decode(String s) {
        return valueOf(Digits.decode(s, MIN_VALUE, MAX_VALUE));
    }

    @Override
    public String toString() {
        return toString(value);
    }

    public static String toString(long n) {
        return (int) n == n ? Digits.decimal((int) n) : Digits.signed(n, 10);
    }

    public static String toString(long n, int radix) {
        return Digits.signed(n, radix < 2 || radix > 36 ? 10 : radix);
    }

    public static String toHexString(long n) {
        return Digits.bits(n, 4);
    }

    public static String toOctalString(long n) {
        return Digits.bits(n, 3);
    }

    public static String toBinaryString(long n) {
        return Digits.bits(n, 1);
    }

    public static String toUnsignedString(long n) {
        return toUnsignedString(n, 10);
    }

    public static String toUnsignedString(long n, int radix) {
        if (n >= 0) {
            return toString(n, radix);
        }
        return toString(divideUnsigned(n, radix), radix) + toString(remainderUnsigned(n, radix), radix);
    }

    // ---- values

    @Override
    public int intValue() {
        return (int) value;
    }

    @Override
    public long longValue() {
        return value;
    }

    @Override
    public boolean equals(Object o) {
        return o instanceof Long && ((Long) o).value == value;
    }

    @Override
    public int hashCode() {
        return hashCode(value);
    }

    public static int hashCode(long n) {
        return (int) (n ^ n >>> 32);
    }

    @Override
    public int compareTo(Long o) {
        return compare(value, o.value);
    }

    public static int compare(long a, long b) {
        return a < b ? -1 : a == b ? 0 : 1;
    }

    public static int compareUnsigned(long a, long b) {
        return compare(a + MIN_VALUE, b + MIN_VALUE);
    }

    public static long divideUnsigned(long a, long b) {
        if (b < 0) {
            return compareUnsigned(a, b) < 0 ? 0 : 1;
        }
        if (a >= 0) {
            return a / b;
        }
        long quotient = (a >>> 1) / b << 1;
        return compareUnsigned(a - quotient * b, b) >= 0 ? quotient + 1 : quotient;
    }

    public static long remainderUnsigned(long a, long b) {
        return a - divideUnsigned(a, b) * b;
    }

    public static int signum(long n) {
        return (int) (n >> 63 | -n >>> 63);
    }

    public static long sum(long a, long b) {
        return a + b;
    }

    public static long max(long a, long b) {
        return a >= b ? a : b;
    }

    public static long min(long a, long b) {
        return a <= b ? a : b;
    }

    // ---- bits

    public static int bitCount(long n) {
        return Integer.bitCount((int) n) + Integer.bitCount((int) (n >>> 32));
    }

    public static int numberOfLeadingZeros(long n) {
        int high = (int) (n >>> 32);
        return high == 0 ? 32 + Integer.numberOfLeadingZeros((int) n) : Integer.numberOfLeadingZeros(high);
    }

    public static int numberOfTrailingZeros(long n) {
        return (int) n == 0 ? 32 + Integer.numberOfTrailingZeros((int) (n >>> 32)) : Integer.numberOfTrailingZeros((int) n);
    }

    public static long highestOneBit(long n) {
        return n & MIN_VALUE >>> numberOfLeadingZeros(n);
    }

    public static long lowestOneBit(long n) {
        return n & -n;
    }

    public static long rotateLeft(long n, int by) {
        return n << by | n >>> -by;
    }

    public static long rotateRight(long n, int by) {
        return n >>> by | n << -by;
    }

    public static long reverse(long n) {
        return (long) Integer.reverse((int) n) << 32 | Integer.reverse((int) (n >>> 32)) & 0xffffffffL;
    }

    public static long reverseBytes(long n) {
        return (long) Integer.reverseBytes((int) n) << 32 | Integer.reverseBytes((int) (n >>> 32)) & 0xffffffffL;
    }
}
