package java.util.concurrent.atomic;

import java.lang.invoke.VarHandle;
import java.util.function.IntBinaryOperator;
import java.util.function.IntUnaryOperator;

/** Atomic operations on a field of ints, over the handle that the tool makes for it. */
public class AtomicIntegerFieldUpdater<T> {
    private final VarHandle handle;

    AtomicIntegerFieldUpdater(VarHandle handle) {
        this.handle = handle;
    }

    /** Returns an updater over the handle; the tool calls this for newUpdater. */
    public static AtomicIntegerFieldUpdater over(VarHandle handle) {
        return new AtomicIntegerFieldUpdater(handle);
    }

    public static <U> AtomicIntegerFieldUpdater<U> newUpdater(Class<U> holder, String name) {
        throw new IllegalArgumentException(name);
    }

    public int get(T holder) {
        return handle.getInt(holder, 0);
    }

    public void set(T holder, int value) {
        handle.setInt(holder, 0, value);
    }

    public void lazySet(T holder, int value) {
        set(holder, value);
    }

    public boolean compareAndSet(T holder, int expected, int value) {
        return handle.compareAndSetInt(holder, 0, expected, value);
    }

    public boolean weakCompareAndSet(T holder, int expected, int value) {
        return compareAndSet(holder, expected, value);
    }

    public int getAndSet(T holder, int value) {
        return handle.getAndSetInt(holder, 0, value);
    }

    public int getAndAdd(T holder, int delta) {
        return handle.getAndAddInt(holder, 0, delta);
    }

    public int addAndGet(T holder, int delta) {
        return getAndAdd(holder, delta) + delta;
    }

    public int getAndIncrement(T holder) {
        return getAndAdd(holder, 1);
    }

    public int getAndDecrement(T holder) {
        return getAndAdd(holder, -1);
    }

    public int incrementAndGet(T holder) {
        return getAndAdd(holder, 1) + 1;
    }

    public int decrementAndGet(T holder) {
        return getAndAdd(holder, -1) - 1;
    }

    public final int getAndUpdate(T holder, IntUnaryOperator function) {
        while (true) {
            int old = get(holder);
            if (compareAndSet(holder, old, function.applyAsInt(old))) {
                return old;
            }
        }
    }

    public final int updateAndGet(T holder, IntUnaryOperator function) {
        while (true) {
            int old = get(holder);
            int next = function.applyAsInt(old);
            if (compareAndSet(holder, old, next)) {
                return next;
            }
        }
    }

    public final int getAndAccumulate(T holder, int x, IntBinaryOperator function) {
        return getAndUpdate(holder, old -> function.applyAsInt(old, x));
    }

    public final int accumulateAndGet(T holder, int x, IntBinaryOperator function) {
        return updateAndGet(holder, old -> function.applyAsInt(old, x));
    }
}
