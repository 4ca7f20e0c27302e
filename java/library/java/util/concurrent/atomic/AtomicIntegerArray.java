package java.util.concurrent.atomic;

import java.util.function.IntBinaryOperator;
import java.util.function.IntUnaryOperator;

/** An array of ints each operation on which holds its monitor. */
public class AtomicIntegerArray implements java.io.Serializable {
    private final int[] array;

    public AtomicIntegerArray(int length) {
        array = new int[length];
    }

    public AtomicIntegerArray(int[] array) {
        this.array = array.clone();
    }

    public final int length() {
        return array.length;
    }

    private void check(int index) {
        if (index < 0 || index >= array.length) {
            throw new ArrayIndexOutOfBoundsException("Index " + index + " out of bounds for length " + array.length);
        }
    }

    public final synchronized int get(int index) {
        check(index);
        return array[index];
    }

    public final synchronized void set(int index, int value) {
        check(index);
        array[index] = value;
    }

    public final void lazySet(int index, int value) {
        set(index, value);
    }

    public final int getPlain(int index) {
        return get(index);
    }

    public final int getAcquire(int index) {
        return get(index);
    }

    public final void setRelease(int index, int value) {
        set(index, value);
    }

    public final synchronized int getAndSet(int index, int value) {
        int old = get(index);
        array[index] = value;
        return old;
    }

    public final synchronized boolean compareAndSet(int index, int expected, int value) {
        if (get(index) != expected) {
            return false;
        }
        array[index] = value;
        return true;
    }

    public final boolean weakCompareAndSet(int index, int expected, int value) {
        return compareAndSet(index, expected, value);
    }

    public final boolean weakCompareAndSetPlain(int index, int expected, int value) {
        return compareAndSet(index, expected, value);
    }

    public final synchronized int compareAndExchange(int index, int expected, int value) {
        int old = get(index);
        if (old == expected) {
            array[index] = value;
        }
        return old;
    }

    public final int getAndIncrement(int index) {
        return getAndAdd(index, 1);
    }

    public final int getAndDecrement(int index) {
        return getAndAdd(index, -1);
    }

    public final int incrementAndGet(int index) {
        return addAndGet(index, 1);
    }

    public final int decrementAndGet(int index) {
        return addAndGet(index, -1);
    }

    public final synchronized int getAndAdd(int index, int delta) {
        int old = get(index);
        array[index] = old + delta;
        return old;
    }

    public final synchronized int addAndGet(int index, int delta) {
        check(index);
        array[index] += delta;
        return array[index];
    }

    public final int getAndUpdate(int index, IntUnaryOperator function) {
        while (true) {
            int old = get(index);
            if (compareAndSet(index, old, function.applyAsInt(old))) {
                return old;
            }
        }
    }

    public final int updateAndGet(int index, IntUnaryOperator function) {
        while (true) {
            int old = get(index);
            int next = function.applyAsInt(old);
            if (compareAndSet(index, old, next)) {
                return next;
            }
        }
    }

    public final int getAndAccumulate(int index, int x, IntBinaryOperator function) {
        while (true) {
            int old = get(index);
            if (compareAndSet(index, old, function.applyAsInt(old, x))) {
                return old;
            }
        }
    }

    public final int accumulateAndGet(int index, int x, IntBinaryOperator function) {
        while (true) {
            int old = get(index);
            int next = function.applyAsInt(old, x);
            if (compareAndSet(index, old, next)) {
                return next;
            }
        }
    }

    @Override
    public synchronized String toString() {
        return java.util.Arrays.toString(array);
    }
}
