package java.lang;

import java.util.HashMap;
import java.util.Map;

/** A value for each thread, whose first value in a new thread comes from the thread that makes it. */
public class InheritableThreadLocal<T> extends ThreadLocal<T> {
    public InheritableThreadLocal() {
    }

    protected T childValue(T parentValue) {
        return parentValue;
    }

    @Override
    HashMap values() {
        jx.Thr me = jx.Thr.currentThread();
        if (me.inheritable == null) {
            me.inheritable = new HashMap();
        }
        return me.inheritable;
    }

    /** Returns the values of a thread that a thread with these values makes. */
    public static HashMap inherit(HashMap values) {
        HashMap copy = new HashMap();
        for (Object o : values.entrySet()) {
            Map.Entry e = (Map.Entry) o;
            copy.put(e.getKey(), ((InheritableThreadLocal) e.getKey()).childValue(e.getValue()));
        }
        return copy;
    }
}
