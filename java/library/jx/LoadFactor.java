package jx;

/** The load factor of a hash table, from the bits of a float, by whole numbers alone. */
public final class LoadFactor {
    /** The bits of 0.75f. */
    public static final int DEFAULT = 0x3f400000;

    private LoadFactor() {
    }

    /** Throws where the bits are those of a number that is no load factor. */
    public static void check(int bits) {
        if (bits <= 0 || bits > 0x7f800000) {
            throw new IllegalArgumentException("Illegal load factor: " + (bits == 0 ? "0.0" : "not above 0"));
        }
    }

    private static long mantissa(int bits) {
        return bits & 0x7fffff | 0x800000;
    }

    private static int shift(int bits) {
        return 150 - (bits >>> 23);
    }

    /** Returns the whole part of the capacity times the factor. */
    public static int of(int capacity, int bits) {
        int shift = shift(bits);
        if (shift < 0) {
            return Integer.MAX_VALUE;
        }
        return shift > 62 ? 0 : (int) Math.min(capacity * mantissa(bits) >> shift, Integer.MAX_VALUE);
    }

    /** Returns the whole part of the size divided by the factor. */
    public static int capacityFor(int size, int bits) {
        int shift = shift(bits);
        if (shift < 0) {
            return 0;
        }
        return shift > 32 ? Integer.MAX_VALUE >> 1 : (int) Math.min(((long) size << shift) / mantissa(bits), Integer.MAX_VALUE >> 1);
    }

    /** Returns the least power of two that isn't below. */
    public static int powerOfTwo(int capacity) {
        if (capacity <= 1) {
            return 1;
        }
        return capacity > 1 << 30 ? 1 << 30 : Integer.highestOneBit(capacity - 1) << 1;
    }
}
