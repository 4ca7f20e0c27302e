package java.util;

/** A hash table whose entries are linked, in order of insertion or of access. */
public class LinkedHashMap<K, V> extends HashMap<K, V> {
    private Linked<K, V> first;
    private Linked<K, V> end;
    private final boolean byAccess;

    /** An entry, linked to its neighbours in order. */
    private static final class Linked<K, V> extends Node<K, V> {
        Linked<K, V> before;
        Linked<K, V> after;

        Linked(int hash, K key, V value) {
            super(hash, key, value);
        }
    }

    public LinkedHashMap() {
        byAccess = false;
    }

    public LinkedHashMap(int capacity) {
        super(capacity);
        byAccess = false;
    }

    public LinkedHashMap(int capacity, int factor) {
        this(capacity, factor, false);
    }

    public LinkedHashMap(int capacity, int factor, boolean byAccess) {
        super(capacity, factor);
        this.byAccess = byAccess;
    }

    public LinkedHashMap(Map<? extends K, ? extends V> m) {
        byAccess = false;
        putAll(m);
    }

    protected boolean removeEldestEntry(Map.Entry<K, V> eldest) {
        return false;
    }

    @Override
    Node<K, V> newNode(int hash, K key, V value) {
        Linked<K, V> n = new Linked<K, V>(hash, key, value);
        link(n);
        return n;
    }

    private void link(Linked<K, V> n) {
        n.before = end;
        if (end == null) {
            first = n;
        } else {
            end.after = n;
        }
        end = n;
    }

    @Override
    void afterRemoval(Node<K, V> gone) {
        Linked<K, V> n = (Linked<K, V>) gone;
        if (n.before == null) {
            first = n.after;
        } else {
            n.before.after = n.after;
        }
        if (n.after == null) {
            end = n.before;
        } else {
            n.after.before = n.before;
        }
        n.before = null;
        n.after = null;
    }

    @Override
    void afterAccess(Node<K, V> n) {
        if (byAccess && n != end) {
            afterRemoval(n);
            link((Linked<K, V>) n);
            modCount++;
        }
    }

    @Override
    void afterInsertion() {
        if (first != null && removeEldestEntry(first)) {
            remove(first.key);
        }
    }

    @Override
    public void clear() {
        super.clear();
        first = null;
        end = null;
    }

    @Override
    HashMap<K, V> copyOf() {
        return new LinkedHashMap<K, V>(16, jx.LoadFactor.DEFAULT, byAccess);
    }

    @Override
    Iterator<Node<K, V>> nodes() {
        return new Links();
    }

    /** Iterates over the links. */
    private final class Links implements Iterator<Node<K, V>> {
        private Linked<K, V> next = first;
        private Linked<K, V> last;
        private int seen = modCount;

        public boolean hasNext() {
            return next != null;
        }

        private void unchanged() {
            if (modCount != seen) {
                throw new ConcurrentModificationException();
            }
        }

        public Node<K, V> next() {
            unchanged();
            if (next == null) {
                throw new NoSuchElementException();
            }
            last = next;
            next = next.after;
            return last;
        }

        public void remove() {
            if (last == null) {
                throw new IllegalStateException();
            }
            unchanged();
            unlink(last);
            last = null;
            seen = modCount;
        }
    }
}
