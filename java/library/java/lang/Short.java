package java.lang;

/** The box of a short. */
public final class Short extends Number implements Comparable<Short> {
    public static final short MIN_VALUE = -32768;
    public static final short MAX_VALUE = 32767;
    public static final int SIZE = 16;
    public static final int BYTES = 2;
    public static final Class<Short> TYPE = null;

    private final short value;

    public Short(short value) {
        this.value = value;
    }

    /** The boxes of the small shorts; made at the first use. */
    private static final class Cache {
        static final Short[] ALL = new Short[256];

        static {
            for (int i = 0; i < 256; i++) {
                ALL[i] = new Short((short) (i - 128));
            }
        }
    }

    public static Short valueOf(short n) {
        return n >= -128 && n < 128 ? Cache.ALL[n + 128] : new Short(n);
    }

    public static Short valueOf(String s) {
        return valueOf(parseShort(s));
    }

    public static short parseShort(String s) {
        return parseShort(s, 10);
    }

    public static short parseShort(String s, int radix) {
        int n = Integer.parseInt(s, radix);
        if (n < MIN_VALUE || n > MAX_VALUE) {
            throw new NumberFormatException("Value out of range. Value:\"" + s + "\" Radix:" + radix);
        }
        return (short) n;
    }

    @Override
    public short shortValue() {
        return value;
    }

    @Override
    public int intValue() {
        return value;
    }

    @Override
    public long longValue() {
        return value;
    }

    @Override
    public boolean equals(Object o) {
        return o instanceof Short && ((Short) o).value == value;
    }

    @Override
    public int hashCode() {
        return value;
    }

    public static int hashCode(short n) {
        return n;
    }

    @Override
    public String toString() {
        return Integer.toString(value);
    }

    public static String toString(short n) {
        return Integer.toString(n);
    }

    @Override
    public int compareTo(Short o) {
        return value - o.value;
    }

    public static int compare(short a, short b) {
        return a - b;
    }

    public static int toUnsignedInt(short n) {
        return n & 0xffff;
    }

    public static long toUnsignedLong(short n) {
        return n & 0xffffL;
    }
}
