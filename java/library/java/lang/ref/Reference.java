package java.lang.ref;

/** A reference, which is strong here: nothing is ever cleared but by its owner. */
public abstract class Reference<T> {
    private T referent;

    Reference(T referent) {
        this.referent = referent;
    }

    public T get() {
        return referent;
    }

    public final boolean refersTo(T o) {
        return referent == o;
    }

    public void clear() {
        referent = null;
    }

    public boolean isEnqueued() {
        return false;
    }

    public boolean enqueue() {
        return false;
    }

    public static void reachabilityFence(Object o) {
    }
}
