package java.util;

import java.util.stream.IntStream;
import java.util.stream.LongStream;

/** Pseudorandom ints, longs and booleans by the linear congruence that Java's documentation gives. */
public class Random implements java.io.Serializable {
    private static final long MULTIPLIER = 0x5DEECE66DL;
    private static final long MASK = (1L << 48) - 1;
    private static long unique = 8682522807148012L;

    private long seed;

    public Random() {
        this(nextUnique());
    }

    public Random(long seed) {
        setSeed(seed);
    }

    /** Returns another seed at each call, the same ones in each run. */
    private static synchronized long nextUnique() {
        unique *= 1181783497276652981L;
        return unique;
    }

    public synchronized void setSeed(long seed) {
        this.seed = (seed ^ MULTIPLIER) & MASK;
    }

    protected synchronized int next(int bits) {
        seed = seed * MULTIPLIER + 0xB & MASK;
        return (int) (seed >>> 48 - bits);
    }

    public int nextInt() {
        return next(32);
    }

    public int nextInt(int bound) {
        if (bound <= 0) {
            throw new IllegalArgumentException("bound must be positive");
        }
        int r = next(31);
        int m = bound - 1;
        if ((bound & m) == 0) {
            return (int) (bound * (long) r >> 31);
        }
        for (int u = r; u - (r = u % bound) + m < 0; u = next(31)) {
            continue;
        }
        return r;
    }

    public int nextInt(int from, int to) {
        if (from >= to) {
            throw new IllegalArgumentException("bound must be greater than origin");
        }
        int r = nextInt();
        int n = to - from;
        int m = n - 1;
        if ((n & m) == 0) {
            return (r & m) + from;
        }
        if (n > 0) {
            for (int u = r >>> 1; u + m - (r = u % n) < 0; u = nextInt() >>> 1) {
                continue;
            }
            return r + from;
        }
        while (r < from || r >= to) {
            r = nextInt();
        }
        return r;
    }

    public long nextLong() {
        return ((long) next(32) << 32) + next(32);
    }

    public long nextLong(long bound) {
        if (bound <= 0) {
            throw new IllegalArgumentException("bound must be positive");
        }
        return nextLong(0, bound);
    }

    public long nextLong(long from, long to) {
        if (from >= to) {
            throw new IllegalArgumentException("bound must be greater than origin");
        }
        long r = nextLong();
        long n = to - from;
        long m = n - 1;
        if ((n & m) == 0) {
            return (r & m) + from;
        }
        if (n > 0) {
            for (long u = r >>> 1; u + m - (r = u % n) < 0; u = nextLong() >>> 1) {
                continue;
            }
            return r + from;
        }
        while (r < from || r >= to) {
            r = nextLong();
        }
        return r;
    }

    public boolean nextBoolean() {
        return next(1) != 0;
    }

    public void nextBytes(byte[] bytes) {
        for (int i = 0; i < bytes.length;) {
            int r = nextInt();
            for (int n = Math.min(bytes.length - i, 4); n-- > 0; r >>= 8) {
                bytes[i++] = (byte) r;
            }
        }
    }

    // ---- streams

    public IntStream ints() {
        return IntStream.generate(() -> nextInt());
    }

    public IntStream ints(long count) {
        checkCount(count);
        return ints().limit(count);
    }

    public IntStream ints(int from, int to) {
        checkRange(from, to);
        return IntStream.generate(() -> between(from, to));
    }

    /** Returns a number of the range in the way of the streams: by a bounded nextInt where the range is an int's. */
    private int between(int from, int to) {
        int n = to - from;
        if (n > 0) {
            return nextInt(n) + from;
        }
        int r = nextInt();
        while (r < from || r >= to) {
            r = nextInt();
        }
        return r;
    }

    public IntStream ints(long count, int from, int to) {
        checkCount(count);
        return ints(from, to).limit(count);
    }

    public LongStream longs() {
        return LongStream.generate(() -> nextLong());
    }

    public LongStream longs(long count) {
        checkCount(count);
        return longs().limit(count);
    }

    public LongStream longs(long from, long to) {
        checkRange(from, to);
        return LongStream.generate(() -> nextLong(from, to));
    }

    public LongStream longs(long count, long from, long to) {
        checkCount(count);
        return longs(from, to).limit(count);
    }

    private static void checkCount(long count) {
        if (count < 0) {
            throw new IllegalArgumentException("size must be non-negative");
        }
    }

    private static void checkRange(long from, long to) {
        if (from >= to) {
            throw new IllegalArgumentException("bound must be greater than origin");
        }
    }
}
