package java.util.concurrent.atomic;

import java.util.function.BinaryOperator;
import java.util.function.UnaryOperator;

/** An array of references each operation on which holds its monitor. */
public class AtomicReferenceArray<E> implements java.io.Serializable {
    private final Object[] array;

    public AtomicReferenceArray(int length) {
        array = new Object[length];
    }

    public AtomicReferenceArray(E[] array) {
        this.array = java.util.Arrays.copyOf(array, array.length, Object[].class);
    }

    public final int length() {
        return array.length;
    }

    private void check(int index) {
        if (index < 0 || index >= array.length) {
            throw new ArrayIndexOutOfBoundsException("Index " + index + " out of bounds for length " + array.length);
        }
    }

    public final synchronized E get(int index) {
        check(index);
        return (E) array[index];
    }

    public final synchronized void set(int index, E value) {
        check(index);
        array[index] = value;
    }

    public final void lazySet(int index, E value) {
        set(index, value);
    }

    public final E getPlain(int index) {
        return get(index);
    }

    public final E getAcquire(int index) {
        return get(index);
    }

    public final void setRelease(int index, E value) {
        set(index, value);
    }

    public final synchronized E getAndSet(int index, E value) {
        E old = get(index);
        array[index] = value;
        return old;
    }

    public final synchronized boolean compareAndSet(int index, E expected, E value) {
        if (get(index) != expected) {
            return false;
        }
        array[index] = value;
        return true;
    }

    public final boolean weakCompareAndSet(int index, E expected, E value) {
        return compareAndSet(index, expected, value);
    }

    public final boolean weakCompareAndSetPlain(int index, E expected, E value) {
        return compareAndSet(index, expected, value);
    }

    public final synchronized E compareAndExchange(int index, E expected, E value) {
        E old = get(index);
        if (old == expected) {
            array[index] = value;
        }
        return old;
    }

    public final E getAndUpdate(int index, UnaryOperator<E> function) {
        while (true) {
            E old = get(index);
            if (compareAndSet(index, old, function.apply(old))) {
                return old;
            }
        }
    }

    public final E updateAndGet(int index, UnaryOperator<E> function) {
        while (true) {
            E old = get(index);
            E next = function.apply(old);
            if (compareAndSet(index, old, next)) {
                return next;
            }
        }
    }

    public final E getAndAccumulate(int index, E x, BinaryOperator<E> function) {
        while (true) {
            E old = get(index);
            if (compareAndSet(index, old, function.apply(old, x))) {
                return old;
            }
        }
    }

    public final E accumulateAndGet(int index, E x, BinaryOperator<E> function) {
        while (true) {
            E old = get(index);
            E next = function.apply(old, x);
            if (compareAndSet(index, old, next)) {
                return next;
            }
        }
    }

    @Override
    public synchronized String toString() {
        return java.util.Arrays.toString(array);
    }
}
