package java.util.concurrent.atomic;

/** A boolean each operation on which holds its monitor. */
public class AtomicBoolean implements java.io.Serializable {
    private boolean value;

    public AtomicBoolean() {
    }

    public AtomicBoolean(boolean value) {
        this.value = value;
    }

    public final synchronized boolean get() {
        return value;
    }

    public final synchronized void set(boolean value) {
        this.value = value;
    }

    public final boolean getPlain() {
        return get();
    }

    public final boolean getAcquire() {
        return get();
    }

    public final void lazySet(boolean value) {
        set(value);
    }

    public final void setPlain(boolean value) {
        set(value);
    }

    public final void setRelease(boolean value) {
        set(value);
    }

    public final synchronized boolean getAndSet(boolean value) {
        boolean old = this.value;
        this.value = value;
        return old;
    }

    public final synchronized boolean compareAndSet(boolean expected, boolean value) {
        if (this.value != expected) {
            return false;
        }
        this.value = value;
        return true;
    }

    public boolean weakCompareAndSet(boolean expected, boolean value) {
        return compareAndSet(expected, value);
    }

    public boolean weakCompareAndSetPlain(boolean expected, boolean value) {
        return compareAndSet(expected, value);
    }

    public boolean weakCompareAndSetVolatile(boolean expected, boolean value) {
        return compareAndSet(expected, value);
    }

    public final synchronized boolean compareAndExchange(boolean expected, boolean value) {
        boolean old = this.value;
        if (old == expected) {
            this.value = value;
        }
        return old;
    }

    @Override
    public String toString() {
        return String.valueOf(get());
    }
}
