package java.util.concurrent.atomic;

/** A reference and a mark, changed together. */
public class AtomicMarkableReference<V> {
    private V reference;
    private boolean mark;

    public AtomicMarkableReference(V reference, boolean mark) {
        this.reference = reference;
        this.mark = mark;
    }

    public synchronized V getReference() {
        return reference;
    }

    public synchronized boolean isMarked() {
        return mark;
    }

    public synchronized V get(boolean[] holder) {
        holder[0] = mark;
        return reference;
    }

    public synchronized boolean compareAndSet(V expected, V value, boolean expectedMark, boolean newMark) {
        if (reference != expected || mark != expectedMark) {
            return false;
        }
        reference = value;
        mark = newMark;
        return true;
    }

    public boolean weakCompareAndSet(V expected, V value, boolean expectedMark, boolean newMark) {
        return compareAndSet(expected, value, expectedMark, newMark);
    }

    public synchronized void set(V value, boolean newMark) {
        reference = value;
        mark = newMark;
    }

    public synchronized boolean attemptMark(V expected, boolean newMark) {
        if (reference != expected) {
            return false;
        }
        mark = newMark;
        return true;
    }
}
