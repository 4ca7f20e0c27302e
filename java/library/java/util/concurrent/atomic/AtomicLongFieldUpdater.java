package java.util.concurrent.atomic;

import java.lang.invoke.VarHandle;
import java.util.function.LongBinaryOperator;
import java.util.function.LongUnaryOperator;

/** Atomic operations on a field of longs, over the handle that the tool makes for it. */
public class AtomicLongFieldUpdater<T> {
    private final VarHandle handle;

    AtomicLongFieldUpdater(VarHandle handle) {
        this.handle = handle;
    }

    /** Returns an updater over the handle; the tool calls this for newUpdater. */
    public static AtomicLongFieldUpdater over(VarHandle handle) {
        return new AtomicLongFieldUpdater(handle);
    }

    public static <U> AtomicLongFieldUpdater<U> newUpdater(Class<U> holder, String name) {
        throw new IllegalArgumentException(name);
    }

    public long get(T holder) {
        return handle.getLong(holder, 0);
    }

    public void set(T holder, long value) {
        handle.setLong(holder, 0, value);
    }

    public void lazySet(T holder, long value) {
        set(holder, value);
    }

    public boolean compareAndSet(T holder, long expected, long value) {
        return handle.compareAndSetLong(holder, 0, expected, value);
    }

    public boolean weakCompareAndSet(T holder, long expected, long value) {
        return compareAndSet(holder, expected, value);
    }

    public long getAndSet(T holder, long value) {
        return handle.getAndSetLong(holder, 0, value);
    }

    public long getAndAdd(T holder, long delta) {
        return handle.getAndAddLong(holder, 0, delta);
    }

    public long addAndGet(T holder, long delta) {
        return getAndAdd(holder, delta) + delta;
    }

    public long getAndIncrement(T holder) {
        return getAndAdd(holder, 1);
    }

    public long getAndDecrement(T holder) {
        return getAndAdd(holder, -1);
    }

    public long incrementAndGet(T holder) {
        return getAndAdd(holder, 1) + 1;
    }

    public long decrementAndGet(T holder) {
        return getAndAdd(holder, -1) - 1;
    }

    public final long getAndUpdate(T holder, LongUnaryOperator function) {
        while (true) {
            long old = get(holder);
            if (compareAndSet(holder, old, function.applyAsLong(old))) {
                return old;
            }
        }
    }

    public final long updateAndGet(T holder, LongUnaryOperator function) {
        while (true) {
            long old = get(holder);
            long next = function.applyAsLong(old);
            if (compareAndSet(holder, old, next)) {
                return next;
            }
        }
    }

    public final long getAndAccumulate(T holder, long x, LongBinaryOperator function) {
        return getAndUpdate(holder, old -> function.applyAsLong(old, x));
    }

    public final long accumulateAndGet(T holder, long x, LongBinaryOperator function) {
        return updateAndGet(holder, old -> function.applyAsLong(old, x));
    }
}
