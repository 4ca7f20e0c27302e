package java.util.concurrent.atomic;

import java.util.function.LongBinaryOperator;
import java.util.function.LongUnaryOperator;

/** A long each operation on which holds its monitor. */
public class AtomicLong extends Number {
    private long value;

    public AtomicLong() {
    }

    public AtomicLong(long value) {
        this.value = value;
    }

    public final synchronized long get() {
        return value;
    }

    public final synchronized void set(long value) {
        this.value = value;
    }

    public final long getPlain() {
        return get();
    }

    public final long getOpaque() {
        return get();
    }

    public final long getAcquire() {
        return get();
    }

    public final void lazySet(long value) {
        set(value);
    }

    public final void setPlain(long value) {
        set(value);
    }

    public final void setOpaque(long value) {
        set(value);
    }

    public final void setRelease(long value) {
        set(value);
    }

    public final synchronized long getAndSet(long value) {
        long old = this.value;
        this.value = value;
        return old;
    }

    public final synchronized boolean compareAndSet(long expected, long value) {
        if (this.value != expected) {
            return false;
        }
        this.value = value;
        return true;
    }

    public final boolean weakCompareAndSet(long expected, long value) {
        return compareAndSet(expected, value);
    }

    public final boolean weakCompareAndSetPlain(long expected, long value) {
        return compareAndSet(expected, value);
    }

    public final boolean weakCompareAndSetVolatile(long expected, long value) {
        return compareAndSet(expected, value);
    }

    public final synchronized long compareAndExchange(long expected, long value) {
        long old = this.value;
        if (old == expected) {
            this.value = value;
        }
        return old;
    }

    public final synchronized long getAndIncrement() {
        return value++;
    }

    public final synchronized long getAndDecrement() {
        return value--;
    }

    public final synchronized long incrementAndGet() {
        return ++value;
    }

    public final synchronized long decrementAndGet() {
        return --value;
    }

    public final synchronized long getAndAdd(long delta) {
        long old = value;
        value += delta;
        return old;
    }

    public final synchronized long addAndGet(long delta) {
        value += delta;
        return value;
    }

    public final long getAndUpdate(LongUnaryOperator function) {
        while (true) {
            long old = get();
            if (compareAndSet(old, function.applyAsLong(old))) {
                return old;
            }
        }
    }

    public final long updateAndGet(LongUnaryOperator function) {
        while (true) {
            long old = get();
            long next = function.applyAsLong(old);
            if (compareAndSet(old, next)) {
                return next;
            }
        }
    }

    public final long getAndAccumulate(long x, LongBinaryOperator function) {
        while (true) {
            long old = get();
            if (compareAndSet(old, function.applyAsLong(old, x))) {
                return old;
            }
        }
    }

    public final long accumulateAndGet(long x, LongBinaryOperator function) {
        while (true) {
            long old = get();
            long next = function.applyAsLong(old, x);
            if (compareAndSet(old, next)) {
                return next;
            }
        }
    }

    @Override
    public int intValue() {
        return (int) get();
    }

    @Override
    public long longValue() {
        return get();
    }

    @Override
    public String toString() {
        return Long.toString(get());
    }
}
