package java.lang;

/** The box of a byte. */
public final class Byte extends Number implements Comparable<Byte> {
    public static final byte MIN_VALUE = -128;
    public static final byte MAX_VALUE = 127;
    public static final int SIZE = 8;
    public static final int BYTES = 1;
    public static final Class<Byte> TYPE = null;

    private final byte value;

    public Byte(byte value) {
        this.value = value;
    }

    /** The boxes of all bytes; made at the first use. */
    private static final class Cache {
        static final Byte[] ALL = new Byte[256];

        static {
            for (int i = 0; i < 256; i++) {
                ALL[i] = new Byte((byte) (i - 128));
            }
        }
    }

    public static Byte valueOf(byte n) {
        return Cache.ALL[n + 128];
    }

    public static Byte valueOf(String s) {
        return valueOf(parseByte(s));
    }

    public static byte parseByte(String s) {
        return parseByte(s, 10);
    }

    public static byte parseByte(String s, int radix) {
        int n = Integer.parseInt(s, radix);
        if (n < MIN_VALUE || n > MAX_VALUE) {
            throw new NumberFormatException("Value out of range. Value:\"" + s + "\" Radix:" + radix);
        }
        return (byte) n;
    }

    @Override
    public byte byteValue() {
        return value;
    }

    @Override
    public int intValue() {
        return value;
    }

    @Override
    public long longValue() {
        return value;
    }

    @Override
    public boolean equals(Object o) {
        return o instanceof Byte && ((Byte) o).value == value;
    }

    @Override
    public int hashCode() {
        return value;
    }

    public static int hashCode(byte n) {
        return n;
    }

    @Override
    public String toString() {
        return Integer.toString(value);
    }

    public static String toString(byte n) {
        return Integer.toString(n);
    }

    @Override
    public int compareTo(Byte o) {
        return value - o.value;
    }

    public static int compare(byte a, byte b) {
        return a - b;
    }

    public static int toUnsignedInt(byte n) {
        return n & 255;
    }

    public static long toUnsignedLong(byte n) {
        return n & 255L;
    }
}
