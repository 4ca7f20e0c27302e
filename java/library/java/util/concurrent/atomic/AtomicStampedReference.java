package java.util.concurrent.atomic;

/** A reference and a stamp, changed together. */
public class AtomicStampedReference<V> {
    private V reference;
    private int stamp;

    public AtomicStampedReference(V reference, int stamp) {
        this.reference = reference;
        this.stamp = stamp;
    }

    public synchronized V getReference() {
        return reference;
    }

    public synchronized int getStamp() {
        return stamp;
    }

    public synchronized V get(int[] holder) {
        holder[0] = stamp;
        return reference;
    }

    public synchronized boolean compareAndSet(V expected, V value, int expectedStamp, int newStamp) {
        if (reference != expected || stamp != expectedStamp) {
            return false;
        }
        reference = value;
        stamp = newStamp;
        return true;
    }

    public boolean weakCompareAndSet(V expected, V value, int expectedStamp, int newStamp) {
        return compareAndSet(expected, value, expectedStamp, newStamp);
    }

    public synchronized void set(V value, int newStamp) {
        reference = value;
        stamp = newStamp;
    }

    public synchronized boolean attemptStamp(V expected, int newStamp) {
        if (reference != expected) {
            return false;
        }
        stamp = newStamp;
        return true;
    }
}
