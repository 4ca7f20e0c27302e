package java.util.concurrent.atomic;

import java.util.function.IntBinaryOperator;
import java.util.function.IntUnaryOperator;

/** An int each operation on which holds its monitor. */
public class AtomicInteger extends Number {
    private int value;

    public AtomicInteger() {
    }

    public AtomicInteger(int value) {
        this.value = value;
    }

    public final synchronized int get() {
        return value;
    }

    public final synchronized void set(int value) {
        this.value = value;
    }

    public final int getPlain() {
        return get();
    }

    public final int getOpaque() {
        return get();
    }

    public final int getAcquire() {
        return get();
    }

    public final void lazySet(int value) {
        set(value);
    }

    public final void setPlain(int value) {
        set(value);
    }

    public final void setOpaque(int value) {
        set(value);
    }

    public final void setRelease(int value) {
        set(value);
    }

    public final synchronized int getAndSet(int value) {
        int old = this.value;
        this.value = value;
        return old;
    }

    public final synchronized boolean compareAndSet(int expected, int value) {
        if (this.value != expected) {
            return false;
        }
        this.value = value;
        return true;
    }

    public final boolean weakCompareAndSet(int expected, int value) {
        return compareAndSet(expected, value);
    }

    public final boolean weakCompareAndSetPlain(int expected, int value) {
        return compareAndSet(expected, value);
    }

    public final boolean weakCompareAndSetVolatile(int expected, int value) {
        return compareAndSet(expected, value);
    }

    public final synchronized int compareAndExchange(int expected, int value) {
        int old = this.value;
        if (old == expected) {
            this.value = value;
        }
        return old;
    }

    public final synchronized int getAndIncrement() {
        return value++;
    }

    public final synchronized int getAndDecrement() {
        return value--;
    }

    public final synchronized int incrementAndGet() {
        return ++value;
    }

    public final synchronized int decrementAndGet() {
        return --value;
    }

    public final synchronized int getAndAdd(int delta) {
        int old = value;
        value += delta;
        return old;
    }

    public final synchronized int addAndGet(int delta) {
        value += delta;
        return value;
    }

    public final int getAndUpdate(IntUnaryOperator function) {
        while (true) {
            int old = get();
            if (compareAndSet(old, function.applyAsInt(old))) {
                return old;
            }
        }
    }

    public final int updateAndGet(IntUnaryOperator function) {
        while (true) {
            int old = get();
            int next = function.applyAsInt(old);
            if (compareAndSet(old, next)) {
                return next;
            }
        }
    }

    public final int getAndAccumulate(int x, IntBinaryOperator function) {
        while (true) {
            int old = get();
            if (compareAndSet(old, function.applyAsInt(old, x))) {
                return old;
            }
        }
    }

    public final int accumulateAndGet(int x, IntBinaryOperator function) {
        while (true) {
            int old = get();
            int next = function.applyAsInt(old, x);
            if (compareAndSet(old, next)) {
                return next;
            }
        }
    }

    @Override
    public int intValue() {
        return get();
    }

    @Override
    public long longValue() {
        return get();
    }

    @Override
    public String toString() {
        return Integer.toString(get());
    }
}
