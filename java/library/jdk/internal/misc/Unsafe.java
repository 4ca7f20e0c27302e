package jdk.internal.misc;

import java.lang.invoke.VarHandle;

/** Access to fields by numbers, over the handles that the tool makes. */
public final class Unsafe {
    private static final Unsafe ONE = new Unsafe();
    private static VarHandle[] handles = new VarHandle[16];
    private static int count;

    private Unsafe() {
    }

    public static Unsafe getUnsafe() {
        return ONE;
    }

    /** Returns the number of a field's handle, from 1. */
    public static synchronized long offset(VarHandle handle) {
        if (count == handles.length) {
            VarHandle[] more = new VarHandle[2 * count];
            System.arraycopy(handles, 0, more, 0, count);
            handles = more;
        }
        handles[count++] = handle;
        return count;
    }

    private static VarHandle at(long offset) {
        return handles[(int) offset - 1];
    }

    public void fullFence() {
    }

    public void loadFence() {
    }

    public void storeFence() {
    }

    public void storeStoreFence() {
    }

    public void loadLoadFence() {
    }

    public void ensureClassInitialized(Class<?> c) {
    }

    public boolean shouldBeInitialized(Class<?> c) {
        return false;
    }

    public void throwException(Throwable e) {
        Unsafe.<RuntimeException>raise(e);
    }

    private static <E extends Throwable> void raise(Throwable e) throws E {
        throw (E) e;
    }

    public void park(boolean absolute, long time) {
        if (absolute) {
            java.util.concurrent.locks.LockSupport.parkUntil(time);
        } else if (time == 0) {
            java.util.concurrent.locks.LockSupport.park();
        } else {
            java.util.concurrent.locks.LockSupport.parkNanos(time);
        }
    }

    public void unpark(Object thread) {
        java.util.concurrent.locks.LockSupport.unpark((Thread) thread);
    }

    // ---- ints

    public int getInt(Object holder, long offset) {
        return at(offset).getInt(holder, 0);
    }

    public int getIntVolatile(Object holder, long offset) {
        return at(offset).getInt(holder, 0);
    }

    public int getIntAcquire(Object holder, long offset) {
        return at(offset).getInt(holder, 0);
    }

    public int getIntOpaque(Object holder, long offset) {
        return at(offset).getInt(holder, 0);
    }

    public void putInt(Object holder, long offset, int value) {
        at(offset).setInt(holder, 0, value);
    }

    public void putIntVolatile(Object holder, long offset, int value) {
        at(offset).setInt(holder, 0, value);
    }

    public void putIntRelease(Object holder, long offset, int value) {
        at(offset).setInt(holder, 0, value);
    }

    public void putIntOpaque(Object holder, long offset, int value) {
        at(offset).setInt(holder, 0, value);
    }

    public boolean compareAndSetInt(Object holder, long offset, int expected, int value) {
        return at(offset).compareAndSetInt(holder, 0, expected, value);
    }

    public boolean weakCompareAndSetInt(Object holder, long offset, int expected, int value) {
        return at(offset).compareAndSetInt(holder, 0, expected, value);
    }

    public boolean weakCompareAndSetIntPlain(Object holder, long offset, int expected, int value) {
        return at(offset).compareAndSetInt(holder, 0, expected, value);
    }

    public boolean weakCompareAndSetIntAcquire(Object holder, long offset, int expected, int value) {
        return at(offset).compareAndSetInt(holder, 0, expected, value);
    }

    public boolean weakCompareAndSetIntRelease(Object holder, long offset, int expected, int value) {
        return at(offset).compareAndSetInt(holder, 0, expected, value);
    }

    public int compareAndExchangeInt(Object holder, long offset, int expected, int value) {
        return at(offset).compareAndExchangeInt(holder, 0, expected, value);
    }

    public int getAndSetInt(Object holder, long offset, int value) {
        return at(offset).getAndSetInt(holder, 0, value);
    }

    public int getAndAddInt(Object holder, long offset, int value) {
        return at(offset).getAndAddInt(holder, 0, value);
    }

    public int getAndBitwiseOrInt(Object holder, long offset, int value) {
        return at(offset).getAndBitwiseOrInt(holder, 0, value);
    }

    public int getAndBitwiseAndInt(Object holder, long offset, int value) {
        return at(offset).getAndBitwiseAndInt(holder, 0, value);
    }

    // ---- longs

    public long getLong(Object holder, long offset) {
        return at(offset).getLong(holder, 0);
    }

    public long getLongVolatile(Object holder, long offset) {
        return at(offset).getLong(holder, 0);
    }

    public long getLongAcquire(Object holder, long offset) {
        return at(offset).getLong(holder, 0);
    }

    public long getLongOpaque(Object holder, long offset) {
        return at(offset).getLong(holder, 0);
    }

    public void putLong(Object holder, long offset, long value) {
        at(offset).setLong(holder, 0, value);
    }

    public void putLongVolatile(Object holder, long offset, long value) {
        at(offset).setLong(holder, 0, value);
    }

    public void putLongRelease(Object holder, long offset, long value) {
        at(offset).setLong(holder, 0, value);
    }

    public void putLongOpaque(Object holder, long offset, long value) {
        at(offset).setLong(holder, 0, value);
    }

    public boolean compareAndSetLong(Object holder, long offset, long expected, long value) {
        return at(offset).compareAndSetLong(holder, 0, expected, value);
    }

    public boolean weakCompareAndSetLong(Object holder, long offset, long expected, long value) {
        return at(offset).compareAndSetLong(holder, 0, expected, value);
    }

    public boolean weakCompareAndSetLongPlain(Object holder, long offset, long expected, long value) {
        return at(offset).compareAndSetLong(holder, 0, expected, value);
    }

    public boolean weakCompareAndSetLongAcquire(Object holder, long offset, long expected, long value) {
        return at(offset).compareAndSetLong(holder, 0, expected, value);
    }

    public boolean weakCompareAndSetLongRelease(Object holder, long offset, long expected, long value) {
        return at(offset).compareAndSetLong(holder, 0, expected, value);
    }

    public long compareAndExchangeLong(Object holder, long offset, long expected, long value) {
        return at(offset).compareAndExchangeLong(holder, 0, expected, value);
    }

    public long getAndSetLong(Object holder, long offset, long value) {
        return at(offset).getAndSetLong(holder, 0, value);
    }

    public long getAndAddLong(Object holder, long offset, long value) {
        return at(offset).getAndAddLong(holder, 0, value);
    }

    public long getAndBitwiseOrLong(Object holder, long offset, long value) {
        return at(offset).getAndBitwiseOrLong(holder, 0, value);
    }

    public long getAndBitwiseAndLong(Object holder, long offset, long value) {
        return at(offset).getAndBitwiseAndLong(holder, 0, value);
    }

    // ---- references

    public Object getReference(Object holder, long offset) {
        return at(offset).getObject(holder, 0);
    }

    public Object getReferenceVolatile(Object holder, long offset) {
        return at(offset).getObject(holder, 0);
    }

    public Object getReferenceAcquire(Object holder, long offset) {
        return at(offset).getObject(holder, 0);
    }

    public Object getReferenceOpaque(Object holder, long offset) {
        return at(offset).getObject(holder, 0);
    }

    public void putReference(Object holder, long offset, Object value) {
        at(offset).setObject(holder, 0, value);
    }

    public void putReferenceVolatile(Object holder, long offset, Object value) {
        at(offset).setObject(holder, 0, value);
    }

    public void putReferenceRelease(Object holder, long offset, Object value) {
        at(offset).setObject(holder, 0, value);
    }

    public void putReferenceOpaque(Object holder, long offset, Object value) {
        at(offset).setObject(holder, 0, value);
    }

    public boolean compareAndSetReference(Object holder, long offset, Object expected, Object value) {
        return at(offset).compareAndSetObject(holder, 0, expected, value);
    }

    public boolean weakCompareAndSetReference(Object holder, long offset, Object expected, Object value) {
        return at(offset).compareAndSetObject(holder, 0, expected, value);
    }

    public boolean weakCompareAndSetReferencePlain(Object holder, long offset, Object expected, Object value) {
        return at(offset).compareAndSetObject(holder, 0, expected, value);
    }

    public boolean weakCompareAndSetReferenceAcquire(Object holder, long offset, Object expected, Object value) {
        return at(offset).compareAndSetObject(holder, 0, expected, value);
    }

    public boolean weakCompareAndSetReferenceRelease(Object holder, long offset, Object expected, Object value) {
        return at(offset).compareAndSetObject(holder, 0, expected, value);
    }

    public Object compareAndExchangeReference(Object holder, long offset, Object expected, Object value) {
        return at(offset).compareAndExchangeObject(holder, 0, expected, value);
    }

    public Object getAndSetReference(Object holder, long offset, Object value) {
        return at(offset).getAndSetObject(holder, 0, value);
    }
}
