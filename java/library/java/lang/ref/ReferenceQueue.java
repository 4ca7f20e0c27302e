package java.lang.ref;

/** A queue of cleared references, which stays empty. */
public class ReferenceQueue<T> {
    public ReferenceQueue() {
    }

    public Reference<? extends T> poll() {
        return null;
    }
}
