package jdk.internal.util;

/** What the JDK's collections ask of arrays. */
public final class ArraysSupport {
    public static final int SOFT_MAX_ARRAY_LENGTH = Integer.MAX_VALUE - 8;

    private ArraysSupport() {
    }

    public static int newLength(int oldLength, int minGrowth, int preferredGrowth) {
        int length = oldLength + Math.max(minGrowth, preferredGrowth);
        if (length > 0 && length <= SOFT_MAX_ARRAY_LENGTH) {
            return length;
        }
        int least = oldLength + minGrowth;
        if (least < 0) {
            throw new OutOfMemoryError("Required length exceeds implementation limit");
        }
        return Math.max(least, SOFT_MAX_ARRAY_LENGTH);
    }

    public static int mismatch(int[] a, int[] b, int length) {
        return mismatch(a, 0, b, 0, length);
    }

    public static int mismatch(int[] a, int from, int[] b, int at, int length) {
        for (int i = 0; i < length; i++) {
            if (a[from + i] != b[at + i]) {
                return i;
            }
        }
        return -1;
    }

    public static int mismatch(long[] a, long[] b, int length) {
        return mismatch(a, 0, b, 0, length);
    }

    public static int mismatch(long[] a, int from, long[] b, int at, int length) {
        for (int i = 0; i < length; i++) {
            if (a[from + i] != b[at + i]) {
                return i;
            }
        }
        return -1;
    }

    public static int mismatch(char[] a, char[] b, int length) {
        return mismatch(a, 0, b, 0, length);
    }

    public static int mismatch(char[] a, int from, char[] b, int at, int length) {
        for (int i = 0; i < length; i++) {
            if (a[from + i] != b[at + i]) {
                return i;
            }
        }
        return -1;
    }

    public static int mismatch(byte[] a, byte[] b, int length) {
        return mismatch(a, 0, b, 0, length);
    }

    public static int mismatch(byte[] a, int from, byte[] b, int at, int length) {
        for (int i = 0; i < length; i++) {
            if (a[from + i] != b[at + i]) {
                return i;
            }
        }
        return -1;
    }

    public static int mismatch(boolean[] a, boolean[] b, int length) {
        return mismatch(a, 0, b, 0, length);
    }

    public static int mismatch(boolean[] a, int from, boolean[] b, int at, int length) {
        for (int i = 0; i < length; i++) {
            if (a[from + i] != b[at + i]) {
                return i;
            }
        }
        return -1;
    }

    public static int mismatch(short[] a, short[] b, int length) {
        return mismatch(a, 0, b, 0, length);
    }

    public static int mismatch(short[] a, int from, short[] b, int at, int length) {
        for (int i = 0; i < length; i++) {
            if (a[from + i] != b[at + i]) {
                return i;
            }
        }
        return -1;
    }

    public static <T> T[] reverse(T[] a) {
        for (int i = 0, j = a.length - 1; i < j; i++, j--) {
            T t = a[i];
            a[i] = a[j];
            a[j] = t;
        }
        return a;
    }
}
