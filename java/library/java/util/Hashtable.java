package java.util;

import java.util.function.BiConsumer;
import java.util.function.BiFunction;
import java.util.function.Function;

/** The old hash table: synchronized, without null, a chain's newest entry first, from the table's end to its start. */
public class Hashtable<K, V> extends Dictionary<K, V> implements Map<K, V>, Cloneable, java.io.Serializable {
    private Slot<K, V>[] table;
    private int count;
    private int threshold;
    private final int factor;
    private int modCount;

    /** An entry of a chain. */
    private static final class Slot<K, V> extends AbstractMap.SimpleEntry<K, V> {
        final int hash;
        Slot<K, V> next;

        Slot(int hash, K key, V value, Slot<K, V> next) {
            super(key, value);
            this.hash = hash;
            this.next = next;
        }

        @Override
        public V setValue(V value) {
            return super.setValue(Objects.requireNonNull(value));
        }
    }

    public Hashtable() {
        this(11, jx.LoadFactor.DEFAULT);
    }

    public Hashtable(int capacity) {
        this(capacity, jx.LoadFactor.DEFAULT);
    }

    public Hashtable(int capacity, int factor) {
        if (capacity < 0) {
            throw new IllegalArgumentException("Illegal Capacity: " + capacity);
        }
        jx.LoadFactor.check(factor);
        this.factor = factor;
        table = (Slot<K, V>[]) new Slot[Math.max(capacity, 1)];
        threshold = jx.LoadFactor.of(table.length, factor);
    }

    public Hashtable(Map<? extends K, ? extends V> m) {
        this(Math.max(2 * m.size(), 11), jx.LoadFactor.DEFAULT);
        putAll(m);
    }

    private Slot<K, V> find(Object key) {
        int hash = key.hashCode();
        for (Slot<K, V> s = table[(hash & 0x7fffffff) % table.length]; s != null; s = s.next) {
            if (s.hash == hash && s.getKey().equals(key)) {
                return s;
            }
        }
        return null;
    }

    protected void rehash() {
        Slot<K, V>[] old = table;
        table = (Slot<K, V>[]) new Slot[2 * old.length + 1];
        threshold = jx.LoadFactor.of(table.length, factor);
        modCount++;
        for (int i = old.length - 1; i >= 0; i--) {
            Slot<K, V> next;
            for (Slot<K, V> s = old[i]; s != null; s = next) {
                next = s.next;
                int at = (s.hash & 0x7fffffff) % table.length;
                s.next = table[at];
                table[at] = s;
            }
        }
    }

    private void add(K key, V value) {
        int hash = key.hashCode();
        if (count >= threshold) {
            rehash();
        }
        int at = (hash & 0x7fffffff) % table.length;
        table[at] = new Slot<K, V>(hash, key, value, table[at]);
        count++;
        modCount++;
    }

    private void unlink(Slot<K, V> gone) {
        int at = (gone.hash & 0x7fffffff) % table.length;
        if (table[at] == gone) {
            table[at] = gone.next;
        } else {
            Slot<K, V> s = table[at];
            while (s.next != gone) {
                s = s.next;
            }
            s.next = gone.next;
        }
        count--;
        modCount++;
    }

    @Override
    public synchronized int size() {
        return count;
    }

    @Override
    public synchronized boolean isEmpty() {
        return count == 0;
    }

    @Override
    public synchronized V get(Object key) {
        Slot<K, V> s = find(key);
        return s == null ? null : s.getValue();
    }

    @Override
    public synchronized V getOrDefault(Object key, V otherwise) {
        Slot<K, V> s = find(key);
        return s == null ? otherwise : s.getValue();
    }

    @Override
    public synchronized boolean containsKey(Object key) {
        return find(key) != null;
    }

    @Override
    public synchronized boolean containsValue(Object value) {
        Objects.requireNonNull(value);
        for (Iterator<Slot<K, V>> i = slots(); i.hasNext();) {
            if (i.next().getValue().equals(value)) {
                return true;
            }
        }
        return false;
    }

    public boolean contains(Object value) {
        return containsValue(value);
    }

    @Override
    public synchronized V put(K key, V value) {
        Objects.requireNonNull(value);
        Slot<K, V> s = find(key);
        if (s != null) {
            return s.setValue(value);
        }
        add(key, value);
        return null;
    }

    @Override
    public synchronized V putIfAbsent(K key, V value) {
        Slot<K, V> s = find(key);
        if (s != null) {
            return s.getValue();
        }
        put(key, value);
        return null;
    }

    @Override
    public synchronized void putAll(Map<? extends K, ? extends V> m) {
        for (Map.Entry<? extends K, ? extends V> e : m.entrySet()) {
            put(e.getKey(), e.getValue());
        }
    }

    @Override
    public synchronized V remove(Object key) {
        Slot<K, V> s = find(key);
        if (s == null) {
            return null;
        }
        unlink(s);
        return s.getValue();
    }

    @Override
    public synchronized boolean remove(Object key, Object value) {
        Slot<K, V> s = find(key);
        if (s == null || !s.getValue().equals(value)) {
            return false;
        }
        unlink(s);
        return true;
    }

    @Override
    public synchronized void clear() {
        modCount++;
        count = 0;
        for (int i = 0; i < table.length; i++) {
            table[i] = null;
        }
    }

    @Override
    public synchronized V computeIfAbsent(K key, Function<? super K, ? extends V> function) {
        return Map.super.computeIfAbsent(key, function);
    }

    @Override
    public synchronized V computeIfPresent(K key, BiFunction<? super K, ? super V, ? extends V> function) {
        return Map.super.computeIfPresent(key, function);
    }

    @Override
    public synchronized V compute(K key, BiFunction<? super K, ? super V, ? extends V> function) {
        return Map.super.compute(key, function);
    }

    @Override
    public synchronized V merge(K key, V value, BiFunction<? super V, ? super V, ? extends V> function) {
        return Map.super.merge(key, value, function);
    }

    @Override
    public synchronized void forEach(BiConsumer<? super K, ? super V> action) {
        for (Iterator<Slot<K, V>> i = slots(); i.hasNext();) {
            Slot<K, V> s = i.next();
            action.accept(s.getKey(), s.getValue());
        }
    }

    @Override
    public synchronized void replaceAll(BiFunction<? super K, ? super V, ? extends V> function) {
        for (Iterator<Slot<K, V>> i = slots(); i.hasNext();) {
            Slot<K, V> s = i.next();
            s.setValue(function.apply(s.getKey(), s.getValue()));
        }
    }

    @Override
    public synchronized Object clone() {
        Hashtable<K, V> copy = new Hashtable<K, V>(table.length, factor);
        List<Slot<K, V>> all = new ArrayList<Slot<K, V>>();
        for (Iterator<Slot<K, V>> i = slots(); i.hasNext();) {
            all.add(i.next());
        }
        for (int i = all.size() - 1; i >= 0; i--) {
            copy.put(all.get(i).getKey(), all.get(i).getValue());
        }
        return copy;
    }

    // ---- iterators and views

    private Iterator<Slot<K, V>> slots() {
        return new Slots();
    }

    /** Iterates from the table's end. */
    private final class Slots implements Iterator<Slot<K, V>> {
        private final Slot<K, V>[] chains = table;
        private int at = chains.length;
        private int seen = modCount;
        private Slot<K, V> next;
        private Slot<K, V> last;

        Slots() {
            skip();
        }

        private void skip() {
            while (next == null && at > 0) {
                next = chains[--at];
            }
        }

        public boolean hasNext() {
            return next != null;
        }

        public Slot<K, V> next() {
            if (modCount != seen) {
                throw new ConcurrentModificationException();
            }
            if (next == null) {
                throw new NoSuchElementException("Hashtable Enumerator");
            }
            last = next;
            next = last.next;
            skip();
            return last;
        }

        public void remove() {
            if (last == null) {
                throw new IllegalStateException("Hashtable Enumerator");
            }
            if (modCount != seen) {
                throw new ConcurrentModificationException();
            }
            unlink(last);
            last = null;
            seen = modCount;
        }
    }

    /** Iterates over the keys or the values. */
    private final class Parts implements Iterator<Object>, Enumeration<Object> {
        private final Iterator<Slot<K, V>> slots = slots();
        private final boolean keys;

        Parts(boolean keys) {
            this.keys = keys;
        }

        public boolean hasNext() {
            return slots.hasNext();
        }

        public Object next() {
            Slot<K, V> s = slots.next();
            return keys ? s.getKey() : s.getValue();
        }

        public void remove() {
            slots.remove();
        }

        public boolean hasMoreElements() {
            return hasNext();
        }

        public Object nextElement() {
            return next();
        }
    }

    @Override
    public synchronized Enumeration<K> keys() {
        return (Enumeration<K>) (Enumeration) new Parts(true);
    }

    @Override
    public synchronized Enumeration<V> elements() {
        return (Enumeration<V>) (Enumeration) new Parts(false);
    }

    @Override
    public Set<K> keySet() {
        return new AbstractSet<K>() {
            public int size() {
                return count;
            }

            public boolean contains(Object o) {
                return containsKey(o);
            }

            public boolean remove(Object o) {
                return Hashtable.this.remove(o) != null;
            }

            public Iterator<K> iterator() {
                return (Iterator<K>) (Iterator) new Parts(true);
            }
        };
    }

    @Override
    public Collection<V> values() {
        return new AbstractCollection<V>() {
            public int size() {
                return count;
            }

            public Iterator<V> iterator() {
                return (Iterator<V>) (Iterator) new Parts(false);
            }
        };
    }

    @Override
    public Set<Map.Entry<K, V>> entrySet() {
        return new AbstractSet<Map.Entry<K, V>>() {
            public int size() {
                return count;
            }

            public Iterator<Map.Entry<K, V>> iterator() {
                return (Iterator<Map.Entry<K, V>>) (Iterator) slots();
            }
        };
    }

    // ---- Object

    @Override
    public synchronized boolean equals(Object o) {
        if (!(o instanceof Map) || ((Map<?, ?>) o).size() != count) {
            return o == this;
        }
        for (Iterator<Slot<K, V>> i = slots(); i.hasNext();) {
            Slot<K, V> s = i.next();
            if (!s.getValue().equals(((Map<?, ?>) o).get(s.getKey()))) {
                return false;
            }
        }
        return true;
    }

    @Override
    public synchronized int hashCode() {
        int h = 0;
        for (Iterator<Slot<K, V>> i = slots(); i.hasNext();) {
            h += i.next().hashCode();
        }
        return h;
    }

    @Override
    public synchronized String toString() {
        StringJoiner joiner = new StringJoiner(", ", "{", "}");
        for (Iterator<Slot<K, V>> i = slots(); i.hasNext();) {
            Slot<K, V> s = i.next();
            joiner.add((s.getKey() == this ? "(this Map)" : s.getKey().toString()) + "="
                + (s.getValue() == this ? "(this Map)" : s.getValue().toString()));
        }
        return joiner.toString();
    }
}
