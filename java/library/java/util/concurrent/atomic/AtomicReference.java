package java.util.concurrent.atomic;

import java.util.function.BinaryOperator;
import java.util.function.UnaryOperator;

/** A reference each operation on which holds its monitor. */
public class AtomicReference<V> implements java.io.Serializable {
    private V value;

    public AtomicReference() {
    }

    public AtomicReference(V value) {
        this.value = value;
    }

    public final synchronized V get() {
        return value;
    }

    public final synchronized void set(V value) {
        this.value = value;
    }

    public final V getPlain() {
        return get();
    }

    public final V getOpaque() {
        return get();
    }

    public final V getAcquire() {
        return get();
    }

    public final void lazySet(V value) {
        set(value);
    }

    public final void setPlain(V value) {
        set(value);
    }

    public final void setOpaque(V value) {
        set(value);
    }

    public final void setRelease(V value) {
        set(value);
    }

    public final synchronized V getAndSet(V value) {
        V old = this.value;
        this.value = value;
        return old;
    }

    public final synchronized boolean compareAndSet(V expected, V value) {
        if (this.value != expected) {
            return false;
        }
        this.value = value;
        return true;
    }

    public final boolean weakCompareAndSet(V expected, V value) {
        return compareAndSet(expected, value);
    }

    public final boolean weakCompareAndSetPlain(V expected, V value) {
        return compareAndSet(expected, value);
    }

    public final boolean weakCompareAndSetVolatile(V expected, V value) {
        return compareAndSet(expected, value);
    }

    public final synchronized V compareAndExchange(V expected, V value) {
        V old = this.value;
        if (old == expected) {
            this.value = value;
        }
        return old;
    }

    public final V getAndUpdate(UnaryOperator<V> function) {
        while (true) {
            V old = get();
            if (compareAndSet(old, function.apply(old))) {
                return old;
            }
        }
    }

    public final V updateAndGet(UnaryOperator<V> function) {
        while (true) {
            V old = get();
            V next = function.apply(old);
            if (compareAndSet(old, next)) {
                return next;
            }
        }
    }

    public final V getAndAccumulate(V x, BinaryOperator<V> function) {
        while (true) {
            V old = get();
            if (compareAndSet(old, function.apply(old, x))) {
                return old;
            }
        }
    }

    public final V accumulateAndGet(V x, BinaryOperator<V> function) {
        while (true) {
            V old = get();
            V next = function.apply(old, x);
            if (compareAndSet(old, next)) {
                return next;
            }
        }
    }

    @Override
    public String toString() {
        return String.valueOf(get());
    }
}
