package java.util.concurrent.atomic;

import java.lang.invoke.VarHandle;
import java.util.function.BinaryOperator;
import java.util.function.UnaryOperator;

/** Atomic operations on a field of references, over the handle that the tool makes for it. */
public class AtomicReferenceFieldUpdater<T, V> {
    private final VarHandle handle;

    AtomicReferenceFieldUpdater(VarHandle handle) {
        this.handle = handle;
    }

    /** Returns an updater over the handle; the tool calls this for newUpdater. */
    public static AtomicReferenceFieldUpdater over(VarHandle handle) {
        return new AtomicReferenceFieldUpdater(handle);
    }

    public static <U, W> AtomicReferenceFieldUpdater<U, W> newUpdater(Class<U> holder, Class<W> type, String name) {
        throw new IllegalArgumentException(name);
    }

    public V get(T holder) {
        return (V) handle.getObject(holder, 0);
    }

    public void set(T holder, V value) {
        handle.setObject(holder, 0, value);
    }

    public void lazySet(T holder, V value) {
        set(holder, value);
    }

    public boolean compareAndSet(T holder, V expected, V value) {
        return handle.compareAndSetObject(holder, 0, expected, value);
    }

    public boolean weakCompareAndSet(T holder, V expected, V value) {
        return compareAndSet(holder, expected, value);
    }

    public V getAndSet(T holder, V value) {
        return (V) handle.getAndSetObject(holder, 0, value);
    }

    public final V getAndUpdate(T holder, UnaryOperator<V> function) {
        while (true) {
            V old = get(holder);
            if (compareAndSet(holder, old, function.apply(old))) {
                return old;
            }
        }
    }

    public final V updateAndGet(T holder, UnaryOperator<V> function) {
        while (true) {
            V old = get(holder);
            V next = function.apply(old);
            if (compareAndSet(holder, old, next)) {
                return next;
            }
        }
    }

    public final V getAndAccumulate(T holder, V x, BinaryOperator<V> function) {
        return getAndUpdate(holder, old -> function.apply(old, x));
    }

    public final V accumulateAndGet(T holder, V x, BinaryOperator<V> function) {
        return updateAndGet(holder, old -> function.apply(old, x));
    }
}
