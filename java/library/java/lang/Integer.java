package java.lang;

/** The box of an int. */
public final class Integer extends Number implements Comparable<Integer> {
    public static final int MIN_VALUE = 0x80000000;
    public static final int MAX_VALUE = 0x7fffffff;
    public static final int SIZE = 32;
    public static final int BYTES = 4;
    public static final Class<Integer> TYPE = null;

    private final int value;

    public Integer(int value) {
        this.value = value;
    }

    public Integer(String s) {
        this(parseInt(s));
    }

    /** The boxes of the small ints; made at the first use. */
    private static final class Cache {
        static final Integer[] ALL = new Integer[256];

        static {
            for (int i = 0; i < 256; i++) {
                ALL[i] = new Integer(i - 128);
            }
        }
    }

    public static Integer valueOf(int n) {
        return n >= -128 && n < 128 ? Cache.ALL[n + 128] : new Integer(n);
    }

    public static Integer valueOf(String s) {
        return valueOf(parseInt(s, 10));
    }

    public static Integer valueOf(String s, int radix) {
        return valueOf(parseInt(s, radix));
    }

    public static Integer getInteger(String property) {
        return null;
    }

    public static Integer getInteger(String property, int otherwise) {
        return valueOf(otherwise);
    }

    // ---- texts

    public static int parseInt(String s) {
        return parseInt(s, 10);
    }

    public static int parseInt(String s, int radix) {
        return (int) Digits.parse(s, radix, MIN_VALUE, MAX_VALUE);
    }

    public static int parseUnsignedInt(String s) {
        return parseUnsignedInt(s, 10);
    }

    public static int parseUnsignedInt(String s, int radix) {
        if (s != null && s.startsWith("-")) {
            throw new NumberFormatException("Illegal leading minus sign on unsigned string " + s + ".");
        }
        long n = Long.parseLong(s, radix);
        if (n >>> 32 != 0) {
            throw new NumberFormatException("String value " + s + " exceeds range of unsigned int.");
        }
        return (int) n;
    }

    public static Integer decode(String s) {
        return valueOf((int) Digits.decode(s, MIN_VALUE, MAX_VALUE));
    }

    @Override
    public String toString() {
        return Digits.decimal(value);
    }

    public static String toString(int n) {
        return Digits.decimal(n);
    }

    public static String toString(int n, int radix) {
        return radix == 10 || radix < 2 || radix > 36 ? Digits.decimal(n) : Digits.signed(n, radix);
    }

    public static String toHexString(int n) {
        return Digits.bits(n & 0xffffffffL, 4);
    }

    public static String toOctalString(int n) {
        return Digits.bits(n & 0xffffffffL, 3);
    }

    public static String toBinaryString(int n) {
        return Digits.bits(n & 0xffffffffL, 1);
    }

    public static String toUnsignedString(int n) {
        return Long.toString(n & 0xffffffffL);
    }

    public static String toUnsignedString(int n, int radix) {
        return Long.toString(n & 0xffffffffL, radix);
    }

    // ---- values

    @Override
    public int intValue() {
        return value;
    }

    @Override
    public long longValue() {
        return value;
    }

    @Override
    public boolean equals(Object o) {
        return o instanceof Integer && ((Integer) o).value == value;
    }

    @Override
    public int hashCode() {
        return value;
    }

    public static int hashCode(int n) {
        return n;
    }

    @Override
    public int compareTo(Integer o) {
        return compare(value, o.value);
    }

    public static int compare(int a, int b) {
        return a < b ? -1 : a == b ? 0 : 1;
    }

    public static int compareUnsigned(int a, int b) {
        return compare(a + MIN_VALUE, b + MIN_VALUE);
    }

    public static long toUnsignedLong(int n) {
        return n & 0xffffffffL;
    }

    public static int divideUnsigned(int a, int b) {
        return (int) (toUnsignedLong(a) / toUnsignedLong(b));
    }

    public static int remainderUnsigned(int a, int b) {
        return (int) (toUnsignedLong(a) % toUnsignedLong(b));
    }

    public static int signum(int n) {
        return n >> 31 | -n >>> 31;
    }

    public static int sum(int a, int b) {
        return a + b;
    }

    public static int max(int a, int b) {
        return a >= b ? a : b;
    }

    public static int min(int a, int b) {
        return a <= b ? a : b;
    }

    // ---- bits

    public static int bitCount(int n) {
        n -= n >>> 1 & 0x55555555;
        n = (n & 0x33333333) + (n >>> 2 & 0x33333333);
        n = n + (n >>> 4) & 0x0f0f0f0f;
        return n * 0x01010101 >>> 24;
    }

    public static int numberOfLeadingZeros(int n) {
        if (n <= 0) {
            return n == 0 ? 32 : 0;
        }
        int zeros = 31;
        for (int step = 16; step > 0; step >>= 1) {
            if (n >>> step != 0) {
                zeros -= step;
                n >>>= step;
            }
        }
        return zeros;
    }

    public static int numberOfTrailingZeros(int n) {
        return n == 0 ? 32 : 31 - numberOfLeadingZeros(n & -n);
    }

    public static int highestOneBit(int n) {
        return n & MIN_VALUE >>> numberOfLeadingZeros(n);
    }

    public static int lowestOneBit(int n) {
        return n & -n;
    }

    public static int rotateLeft(int n, int by) {
        return n << by | n >>> -by;
    }

    public static int rotateRight(int n, int by) {
        return n >>> by | n << -by;
    }

    public static int reverse(int n) {
        n = (n & 0x55555555) << 1 | n >>> 1 & 0x55555555;
        n = (n & 0x33333333) << 2 | n >>> 2 & 0x33333333;
        n = (n & 0x0f0f0f0f) << 4 | n >>> 4 & 0x0f0f0f0f;
        return reverseBytes(n);
    }

    public static int reverseBytes(int n) {
        return n << 24 | (n & 0xff00) << 8 | n >>> 8 & 0xff00 | n >>> 24;
    }
}
