package java.lang.invoke;

/**
 * Access to a field or to the elements of an array, of which each compound operation holds the handle's monitor.
 *
 * <p>The tool makes a subclass for each field, and turns the calls of programs into the methods here: the holder is null for a static
 * field, the index 0 for any field.
 */
public abstract class VarHandle {
    // ---- plain access, by the subclasses

    public Object getObject(Object holder, int index) {
        throw new UnsupportedOperationException();
    }

    public int getInt(Object holder, int index) {
        throw new UnsupportedOperationException();
    }

    public long getLong(Object holder, int index) {
        throw new UnsupportedOperationException();
    }

    public void putObject(Object holder, int index, Object value) {
        throw new UnsupportedOperationException();
    }

    public void putInt(Object holder, int index, int value) {
        throw new UnsupportedOperationException();
    }

    public void putLong(Object holder, int index, long value) {
        throw new UnsupportedOperationException();
    }

    // ---- references

    public final synchronized void setObject(Object holder, int index, Object value) {
        putObject(holder, index, value);
    }

    public final synchronized boolean compareAndSetObject(Object holder, int index, Object expected, Object value) {
        if (getObject(holder, index) != expected) {
            return false;
        }
        putObject(holder, index, value);
        return true;
    }

    public final synchronized Object compareAndExchangeObject(Object holder, int index, Object expected, Object value) {
        Object old = getObject(holder, index);
        if (old == expected) {
            putObject(holder, index, value);
        }
        return old;
    }

    public final synchronized Object getAndSetObject(Object holder, int index, Object value) {
        Object old = getObject(holder, index);
        putObject(holder, index, value);
        return old;
    }

    // ---- ints

    public final synchronized void setInt(Object holder, int index, int value) {
        putInt(holder, index, value);
    }

    public final synchronized boolean compareAndSetInt(Object holder, int index, int expected, int value) {
        if (getInt(holder, index) != expected) {
            return false;
        }
        putInt(holder, index, value);
        return true;
    }

    public final synchronized int compareAndExchangeInt(Object holder, int index, int expected, int value) {
        int old = getInt(holder, index);
        if (old == expected) {
            putInt(holder, index, value);
        }
        return old;
    }

    public final synchronized int getAndSetInt(Object holder, int index, int value) {
        int old = getInt(holder, index);
        putInt(holder, index, value);
        return old;
    }

    public final synchronized int getAndAddInt(Object holder, int index, int delta) {
        int old = getInt(holder, index);
        putInt(holder, index, old + delta);
        return old;
    }

    public final synchronized int getAndBitwiseOrInt(Object holder, int index, int mask) {
        int old = getInt(holder, index);
        putInt(holder, index, old | mask);
        return old;
    }

    public final synchronized int getAndBitwiseAndInt(Object holder, int index, int mask) {
        int old = getInt(holder, index);
        putInt(holder, index, old & mask);
        return old;
    }

    public final synchronized int getAndBitwiseXorInt(Object holder, int index, int mask) {
        int old = getInt(holder, index);
        putInt(holder, index, old ^ mask);
        return old;
    }

    // ---- longs

    public final synchronized void setLong(Object holder, int index, long value) {
        putLong(holder, index, value);
    }

    public final synchronized boolean compareAndSetLong(Object holder, int index, long expected, long value) {
        if (getLong(holder, index) != expected) {
            return false;
        }
        putLong(holder, index, value);
        return true;
    }

    public final synchronized long compareAndExchangeLong(Object holder, int index, long expected, long value) {
        long old = getLong(holder, index);
        if (old == expected) {
            putLong(holder, index, value);
        }
        return old;
    }

    public final synchronized long getAndSetLong(Object holder, int index, long value) {
        long old = getLong(holder, index);
        putLong(holder, index, value);
        return old;
    }

    public final synchronized long getAndAddLong(Object holder, int index, long delta) {
        long old = getLong(holder, index);
        putLong(holder, index, old + delta);
        return old;
    }

    public final synchronized long getAndBitwiseOrLong(Object holder, int index, long mask) {
        long old = getLong(holder, index);
        putLong(holder, index, old | mask);
        return old;
    }

    public final synchronized long getAndBitwiseAndLong(Object holder, int index, long mask) {
        long old = getLong(holder, index);
        putLong(holder, index, old & mask);
        return old;
    }

    // ---- fences, of which the machine needs none, and adjusters

    public static void fullFence() {
    }

    public static void acquireFence() {
    }

    public static void releaseFence() {
    }

    public static void loadLoadFence() {
    }

    public static void storeStoreFence() {
    }

    public final VarHandle withInvokeExactBehavior() {
        return this;
    }

    public final VarHandle withInvokeBehavior() {
        return this;
    }
}
