package java.lang;

import java.util.HashMap;
import java.util.function.Supplier;

/** A value for each thread. */
public class ThreadLocal<T> {
    public ThreadLocal() {
    }

    /** Returns the running thread's values. */
    HashMap values() {
        jx.Thr me = jx.Thr.currentThread();
        if (me.locals == null) {
            me.locals = new HashMap();
        }
        return me.locals;
    }

    protected T initialValue() {
        return null;
    }

    public T get() {
        HashMap values = values();
        Object value = values.get(this);
        if (value == null && !values.containsKey(this)) {
            value = initialValue();
            values.put(this, value);
        }
        return (T) value;
    }

    public void set(T value) {
        values().put(this, value);
    }

    public void remove() {
        values().remove(this);
    }

    public static <S> ThreadLocal<S> withInitial(Supplier<? extends S> supplier) {
        return new Supplied<S>(supplier);
    }

    /** Has its first values from a supplier. */
    private static final class Supplied<S> extends ThreadLocal<S> {
        private final Supplier<? extends S> supplier;

        Supplied(Supplier<? extends S> supplier) {
            if (supplier == null) {
                throw new NullPointerException();
            }
            this.supplier = supplier;
        }

        @Override
        protected S initialValue() {
            return supplier.get();
        }
    }
}
