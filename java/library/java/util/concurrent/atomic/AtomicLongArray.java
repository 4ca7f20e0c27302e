package java.util.concurrent.atomic;

import java.util.function.LongBinaryOperator;
import java.util.function.LongUnaryOperator;

/** An array of longs each operation on which holds its monitor. */
public class AtomicLongArray implements java.io.Serializable {
    private final long[] array;

    public AtomicLongArray(int length) {
        array = new long[length];
    }

    public AtomicLongArray(long[] array) {
        this.array = array.clone();
    }

    public final int length() {
        return array.length;
    }

    private void check(int index) {
        if (index < 0 || index >= array.length) {
            throw new ArrayIndexOutOfBoundsException("Index " + index + " out of bounds for length " + array.length);
        }
    }

    public final synchronized long get(int index) {
        check(index);
        return array[index];
    }

    public final synchronized void set(int index, long value) {
        check(index);
        array[index] = value;
    }

    public final void lazySet(int index, long value) {
        set(index, value);
    }

    public final long getPlain(int index) {
        return get(index);
    }

    public final long getAcquire(int index) {
        return get(index);
    }

    public final void setRelease(int index, long value) {
        set(index, value);
    }

    public final synchronized long getAndSet(int index, long value) {
        long old = get(index);
        array[index] = value;
        return old;
    }

    public final synchronized boolean compareAndSet(int index, long expected, long value) {
        if (get(index) != expected) {
            return false;
        }
        array[index] = value;
        return true;
    }

    public final boolean weakCompareAndSet(int index, long expected, long value) {
        return compareAndSet(index, expected, value);
    }

    public final boolean weakCompareAndSetPlain(int index, long expected, long value) {
        return compareAndSet(index, expected, value);
    }

    public final synchronized long compareAndExchange(int index, long expected, long value) {
        long old = get(index);
        if (old == expected) {
            array[index] = value;
        }
        return old;
    }

    public final long getAndIncrement(int index) {
        return getAndAdd(index, 1);
    }

    public final long getAndDecrement(int index) {
        return getAndAdd(index, -1);
    }

    public final long incrementAndGet(int index) {
        return addAndGet(index, 1);
    }

    public final long decrementAndGet(int index) {
        return addAndGet(index, -1);
    }

    public final synchronized long getAndAdd(int index, long delta) {
        long old = get(index);
        array[index] = old + delta;
        return old;
    }

    public final synchronized long addAndGet(int index, long delta) {
        check(index);
        array[index] += delta;
        return array[index];
    }

    public final long getAndUpdate(int index, LongUnaryOperator function) {
        while (true) {
            long old = get(index);
            if (compareAndSet(index, old, function.applyAsLong(old))) {
                return old;
            }
        }
    }

    public final long updateAndGet(int index, LongUnaryOperator function) {
        while (true) {
            long old = get(index);
            long next = function.applyAsLong(old);
            if (compareAndSet(index, old, next)) {
                return next;
            }
        }
    }

    public final long getAndAccumulate(int index, long x, LongBinaryOperator function) {
        while (true) {
            long old = get(index);
            if (compareAndSet(index, old, function.applyAsLong(old, x))) {
                return old;
            }
        }
    }

    public final long accumulateAndGet(int index, long x, LongBinaryOperator function) {
        while (true) {
            long old = get(index);
            long next = function.applyAsLong(old, x);
            if (compareAndSet(index, old, next)) {
                return next;
            }
        }
    }

    @Override
    public synchronized String toString() {
        return java.util.Arrays.toString(array);
    }
}
