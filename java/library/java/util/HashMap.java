package java.util;

import java.util.function.BiConsumer;
import java.util.function.BiFunction;
import java.util.function.Consumer;
import java.util.function.Function;

/** A hash table with chains, whose order is that of the JDK's: capacities of two's powers, chains in order of insertion. */
public class HashMap<K, V> extends AbstractMap<K, V> implements Map<K, V>, Cloneable, java.io.Serializable {
    private static final int MAX_CAPACITY = 1 << 30;
    /** A chain of this length makes a small table grow. */
    private static final int LONG_CHAIN = 8;
    private static final int SMALL_TABLE = 64;

    Node<K, V>[] table;
    int modCount;
    private int size;
    private int threshold;
    private final int factor;

    /** An entry, linked to the next of its chain. */
    static class Node<K, V> implements Map.Entry<K, V> {
        final int hash;
        final K key;
        V value;
        Node<K, V> next;

        Node(int hash, K key, V value) {
            this.hash = hash;
            this.key = key;
            this.value = value;
        }

        public final K getKey() {
            return key;
        }

        public final V getValue() {
            return value;
        }

        public final V setValue(V value) {
            V old = this.value;
            this.value = value;
            return old;
        }

        @Override
        public final String toString() {
            return key + "=" + value;
        }

        @Override
        public final int hashCode() {
            return Objects.hashCode(key) ^ Objects.hashCode(value);
        }

        @Override
        public final boolean equals(Object o) {
            if (!(o instanceof Map.Entry)) {
                return false;
            }
            Map.Entry<?, ?> e = (Map.Entry<?, ?>) o;
            return o == this || Objects.equals(key, e.getKey()) && Objects.equals(value, e.getValue());
        }
    }

    public HashMap() {
        factor = jx.LoadFactor.DEFAULT;
    }

    public HashMap(int capacity) {
        this(capacity, jx.LoadFactor.DEFAULT);
    }

    /** Makes a table; the load factor is given by the bits of its float. */
    public HashMap(int capacity, int factor) {
        if (capacity < 0) {
            throw new IllegalArgumentException("Illegal initial capacity: " + capacity);
        }
        jx.LoadFactor.check(factor);
        this.factor = factor;
        this.threshold = jx.LoadFactor.powerOfTwo(capacity);
    }

    public HashMap(Map<? extends K, ? extends V> m) {
        factor = jx.LoadFactor.DEFAULT;
        putAll(m);
    }

    public static <K, V> HashMap<K, V> newHashMap(int count) {
        return new HashMap<K, V>(jx.LoadFactor.capacityFor(count, jx.LoadFactor.DEFAULT) + 1);
    }

    // ---- the table

    static int spread(Object key) {
        if (key == null) {
            return 0;
        }
        int h = key.hashCode();
        return h ^ h >>> 16;
    }

    final Node<K, V> find(Object key) {
        Node<K, V>[] t = table;
        if (t == null) {
            return null;
        }
        int hash = spread(key);
        for (Node<K, V> n = t[hash & t.length - 1]; n != null; n = n.next) {
            if (n.hash == hash && (n.key == key || key != null && key.equals(n.key))) {
                return n;
            }
        }
        return null;
    }

    private void grow() {
        int oldCapacity = table == null ? 0 : table.length;
        int capacity;
        if (oldCapacity >= MAX_CAPACITY) {
            threshold = Integer.MAX_VALUE;
            return;
        }
        if (oldCapacity > 0) {
            capacity = 2 * oldCapacity;
            threshold = oldCapacity >= 16 ? 2 * threshold : jx.LoadFactor.of(capacity, factor);
        } else {
            capacity = threshold > 0 ? threshold : 16;
            threshold = jx.LoadFactor.of(capacity, factor);
        }
        Node<K, V>[] old = table;
        table = (Node<K, V>[]) new Node[capacity];
        for (int i = 0; i < oldCapacity; i++) {
            split(old[i], i, oldCapacity);
        }
    }

    /** Spreads an old chain over its two places, in order. */
    private void split(Node<K, V> chain, int at, int oldCapacity) {
        Node<K, V> lowEnd = null;
        Node<K, V> highEnd = null;
        Node<K, V> next;
        for (Node<K, V> n = chain; n != null; n = next) {
            next = n.next;
            n.next = null;
            if ((n.hash & oldCapacity) == 0) {
                if (lowEnd == null) {
                    table[at] = n;
                } else {
                    lowEnd.next = n;
                }
                lowEnd = n;
            } else {
                if (highEnd == null) {
                    table[at + oldCapacity] = n;
                } else {
                    highEnd.next = n;
                }
                highEnd = n;
            }
        }
    }

    /** Adds an entry for a key that isn't there. */
    private void add(K key, V value) {
        if (table == null) {
            grow();
        }
        int hash = spread(key);
        Node<K, V> added = newNode(hash, key, value);
        int at = hash & table.length - 1;
        Node<K, V> n = table[at];
        int length = 0;
        if (n == null) {
            table[at] = added;
        } else {
            for (length = 1; n.next != null; length++) {
                n = n.next;
            }
            n.next = added;
        }
        if (length >= LONG_CHAIN && table.length < SMALL_TABLE) {
            grow();
        }
        modCount++;
        if (++size > threshold) {
            grow();
        }
        afterInsertion();
    }

    /** Grows a table that is over its threshold, as the computing methods do at their start. */
    private void prepare() {
        if (size > threshold || table == null) {
            grow();
        }
    }

    /** Adds an entry at the head of its chain, as the computing methods do. */
    private void addFirst(K key, V value) {
        int hash = spread(key);
        Node<K, V> added = newNode(hash, key, value);
        int at = hash & table.length - 1;
        int length = 0;
        for (Node<K, V> n = table[at]; n != null; n = n.next) {
            length++;
        }
        added.next = table[at];
        table[at] = added;
        if (length >= LONG_CHAIN - 1 && table.length < SMALL_TABLE) {
            grow();
        }
        modCount++;
        size++;
        afterInsertion();
    }

    /** Removes an entry of the table. */
    final void unlink(Node<K, V> gone) {
        int at = gone.hash & table.length - 1;
        if (table[at] == gone) {
            table[at] = gone.next;
        } else {
            Node<K, V> n = table[at];
            while (n.next != gone) {
                n = n.next;
            }
            n.next = gone.next;
        }
        modCount++;
        size--;
        afterRemoval(gone);
    }

    // ---- what a linked table does besides

    Node<K, V> newNode(int hash, K key, V value) {
        return new Node<K, V>(hash, key, value);
    }

    void afterAccess(Node<K, V> n) {
    }

    void afterInsertion() {
    }

    void afterRemoval(Node<K, V> n) {
    }

    // ---- Map

    @Override
    public int size() {
        return size;
    }

    @Override
    public boolean isEmpty() {
        return size == 0;
    }

    @Override
    public V get(Object key) {
        Node<K, V> n = find(key);
        if (n == null) {
            return null;
        }
        afterAccess(n);
        return n.value;
    }

    @Override
    public V getOrDefault(Object key, V otherwise) {
        Node<K, V> n = find(key);
        if (n == null) {
            return otherwise;
        }
        afterAccess(n);
        return n.value;
    }

    @Override
    public boolean containsKey(Object key) {
        return find(key) != null;
    }

    @Override
    public boolean containsValue(Object value) {
        for (Iterator<Node<K, V>> i = nodes(); i.hasNext();) {
            if (Objects.equals(value, i.next().value)) {
                return true;
            }
        }
        return false;
    }

    @Override
    public V put(K key, V value) {
        Node<K, V> n = find(key);
        if (n == null) {
            add(key, value);
            return null;
        }
        V old = n.value;
        n.value = value;
        afterAccess(n);
        return old;
    }

    @Override
    public V putIfAbsent(K key, V value) {
        Node<K, V> n = find(key);
        if (n == null) {
            add(key, value);
            return null;
        }
        V old = n.value;
        if (old == null) {
            n.value = value;
        }
        afterAccess(n);
        return old;
    }

    @Override
    public void putAll(Map<? extends K, ? extends V> m) {
        int more = m.size();
        if (more == 0) {
            return;
        }
        if (table == null) {
            int needed = jx.LoadFactor.capacityFor(more, factor) + 1;
            if (needed > threshold) {
                threshold = jx.LoadFactor.powerOfTwo(needed);
            }
        } else {
            while (more > threshold && table.length < MAX_CAPACITY) {
                grow();
            }
        }
        for (Map.Entry<? extends K, ? extends V> e : m.entrySet()) {
            put(e.getKey(), e.getValue());
        }
    }

    @Override
    public V remove(Object key) {
        Node<K, V> n = find(key);
        if (n == null) {
            return null;
        }
        unlink(n);
        return n.value;
    }

    @Override
    public boolean remove(Object key, Object value) {
        Node<K, V> n = find(key);
        if (n == null || !Objects.equals(value, n.value)) {
            return false;
        }
        unlink(n);
        return true;
    }

    @Override
    public boolean replace(K key, V old, V value) {
        Node<K, V> n = find(key);
        if (n == null || !Objects.equals(old, n.value)) {
            return false;
        }
        n.value = value;
        afterAccess(n);
        return true;
    }

    @Override
    public V replace(K key, V value) {
        Node<K, V> n = find(key);
        if (n == null) {
            return null;
        }
        V old = n.value;
        n.value = value;
        afterAccess(n);
        return old;
    }

    @Override
    public void clear() {
        modCount++;
        if (table != null && size > 0) {
            size = 0;
            for (int i = 0; i < table.length; i++) {
                table[i] = null;
            }
        }
    }

    private void unchanged(int seen) {
        if (modCount != seen) {
            throw new ConcurrentModificationException();
        }
    }

    @Override
    public V computeIfAbsent(K key, Function<? super K, ? extends V> function) {
        Objects.requireNonNull(function);
        prepare();
        Node<K, V> n = find(key);
        if (n != null && n.value != null) {
            afterAccess(n);
            return n.value;
        }
        int seen = modCount;
        V value = function.apply(key);
        unchanged(seen);
        if (value != null) {
            store(n, key, value);
        }
        return value;
    }

    /** Sets the value of the entry, or adds one where that is null. */
    private void store(Node<K, V> n, K key, V value) {
        if (n == null) {
            addFirst(key, value);
        } else {
            n.value = value;
            afterAccess(n);
        }
    }

    @Override
    public V computeIfPresent(K key, BiFunction<? super K, ? super V, ? extends V> function) {
        Objects.requireNonNull(function);
        Node<K, V> n = find(key);
        if (n == null || n.value == null) {
            return null;
        }
        int seen = modCount;
        V value = function.apply(key, n.value);
        unchanged(seen);
        return storeOrRemove(n, key, value);
    }

    private V storeOrRemove(Node<K, V> n, K key, V value) {
        if (value != null) {
            store(n, key, value);
        } else if (n != null) {
            unlink(n);
        }
        return value;
    }

    @Override
    public V compute(K key, BiFunction<? super K, ? super V, ? extends V> function) {
        Objects.requireNonNull(function);
        prepare();
        Node<K, V> n = find(key);
        int seen = modCount;
        V value = function.apply(key, n == null ? null : n.value);
        unchanged(seen);
        return storeOrRemove(n, key, value);
    }

    @Override
    public V merge(K key, V value, BiFunction<? super V, ? super V, ? extends V> function) {
        if (value == null || function == null) {
            throw new NullPointerException();
        }
        prepare();
        Node<K, V> n = find(key);
        if (n == null || n.value == null) {
            store(n, key, value);
            return value;
        }
        int seen = modCount;
        V merged = function.apply(n.value, value);
        unchanged(seen);
        return storeOrRemove(n, key, merged);
    }

    @Override
    public void forEach(BiConsumer<? super K, ? super V> action) {
        Objects.requireNonNull(action);
        int seen = modCount;
        for (Iterator<Node<K, V>> i = nodes(); i.hasNext();) {
            Node<K, V> n = i.next();
            action.accept(n.key, n.value);
        }
        unchanged(seen);
    }

    @Override
    public void replaceAll(BiFunction<? super K, ? super V, ? extends V> function) {
        Objects.requireNonNull(function);
        int seen = modCount;
        for (Iterator<Node<K, V>> i = nodes(); i.hasNext();) {
            Node<K, V> n = i.next();
            n.value = function.apply(n.key, n.value);
        }
        unchanged(seen);
    }

    @Override
    public Object clone() {
        HashMap<K, V> copy = copyOf();
        copy.putAll(this);
        return copy;
    }

    /** Returns an empty table of the same kind. */
    HashMap<K, V> copyOf() {
        return new HashMap<K, V>();
    }

    // ---- iterators and views

    Iterator<Node<K, V>> nodes() {
        return new Chains();
    }

    /** Iterates over the chains of the table. */
    private final class Chains implements Iterator<Node<K, V>> {
        private final Node<K, V>[] chains = table;
        private int seen = modCount;
        private int at;
        private Node<K, V> next;
        private Node<K, V> last;

        Chains() {
            skip();
        }

        private void skip() {
            while (next == null && chains != null && at < chains.length) {
                next = chains[at++];
            }
        }

        public boolean hasNext() {
            return next != null;
        }

        public Node<K, V> next() {
            unchanged(seen);
            if (next == null) {
                throw new NoSuchElementException();
            }
            last = next;
            next = last.next;
            skip();
            return last;
        }

        public void remove() {
            if (last == null) {
                throw new IllegalStateException();
            }
            unchanged(seen);
            unlink(last);
            last = null;
            seen = modCount;
        }
    }

    @Override
    public Set<K> keySet() {
        return new Keys();
    }

    @Override
    public Collection<V> values() {
        return new Values();
    }

    @Override
    public Set<Map.Entry<K, V>> entrySet() {
        return new Entries();
    }

    /** The keys. */
    private final class Keys extends AbstractSet<K> {
        public int size() {
            return size;
        }

        public void clear() {
            HashMap.this.clear();
        }

        public boolean contains(Object o) {
            return containsKey(o);
        }

        public boolean remove(Object key) {
            Node<K, V> n = find(key);
            if (n == null) {
                return false;
            }
            unlink(n);
            return true;
        }

        public Iterator<K> iterator() {
            final Iterator<Node<K, V>> nodes = nodes();
            return new Iterator<K>() {
                public boolean hasNext() {
                    return nodes.hasNext();
                }

                public K next() {
                    return nodes.next().key;
                }

                public void remove() {
                    nodes.remove();
                }
            };
        }

        public void forEach(Consumer<? super K> action) {
            HashMap.this.forEach((k, v) -> action.accept(k));
        }
    }

    /** The values. */
    private final class Values extends AbstractCollection<V> {
        public int size() {
            return size;
        }

        public void clear() {
            HashMap.this.clear();
        }

        public boolean contains(Object o) {
            return containsValue(o);
        }

        public Iterator<V> iterator() {
            final Iterator<Node<K, V>> nodes = nodes();
            return new Iterator<V>() {
                public boolean hasNext() {
                    return nodes.hasNext();
                }

                public V next() {
                    return nodes.next().value;
                }

                public void remove() {
                    nodes.remove();
                }
            };
        }

        public void forEach(Consumer<? super V> action) {
            HashMap.this.forEach((k, v) -> action.accept(v));
        }
    }

    /** The entries. */
    private final class Entries extends AbstractSet<Map.Entry<K, V>> {
        public int size() {
            return size;
        }

        public void clear() {
            HashMap.this.clear();
        }

        private Node<K, V> same(Object o) {
            if (!(o instanceof Map.Entry)) {
                return null;
            }
            Node<K, V> n = find(((Map.Entry<?, ?>) o).getKey());
            return n != null && n.equals(o) ? n : null;
        }

        public boolean contains(Object o) {
            return same(o) != null;
        }

        public boolean remove(Object o) {
            Node<K, V> n = same(o);
            if (n == null) {
                return false;
            }
            unlink(n);
            return true;
        }

        public Iterator<Map.Entry<K, V>> iterator() {
            return (Iterator<Map.Entry<K, V>>) (Iterator) nodes();
        }
    }
}
