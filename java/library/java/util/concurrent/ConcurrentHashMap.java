package java.util.concurrent;

import java.util.AbstractCollection;
import java.util.AbstractMap;
import java.util.AbstractSet;
import java.util.Collection;
import java.util.Enumeration;
import java.util.Iterator;
import java.util.Map;
import java.util.NoSuchElementException;
import java.util.Objects;
import java.util.Set;
import java.util.function.BiConsumer;
import java.util.function.BiFunction;
import java.util.function.Consumer;
import java.util.function.Function;

/**
 * A hash table for many threads. A change holds the monitor of its place, also while a function computes the value, and a look holds none.
 *
 * <p>Its order is that of the JDK's table: places by the same hash, chains that a growth turns in the same way. The table doesn't grow while
 * a function computes a value.
 */
public class ConcurrentHashMap<K, V> extends AbstractMap<K, V> implements ConcurrentMap<K, V>, java.io.Serializable {
    private static final int LONG_CHAIN = 8;
    private static final int SMALL_TABLE = 64;

    private final Object counting = new Object();
    private final Object growing = new Object();
    private Node<K, V>[] table;
    /** One for each place of the table, null before its first use. */
    private Bin[] bins;
    private int capacity = 16;
    private int count;
    private boolean isGrowing;

    /** What a thread owns that changes the chain of a place. */
    private static final class Bin {
        /** Whether the owner computes a value. */
        boolean isComputing;
    }

    /** An entry of a chain. */
    private static final class Node<K, V> {
        final int hash;
        final K key;
        V value;
        Node<K, V> next;

        Node(int hash, K key, V value, Node<K, V> next) {
            this.hash = hash;
            this.key = key;
            this.value = value;
            this.next = next;
        }
    }

    public ConcurrentHashMap() {
    }

    public ConcurrentHashMap(int capacity) {
        this(capacity, jx.LoadFactor.DEFAULT, 1);
    }

    public ConcurrentHashMap(int capacity, int factor) {
        this(capacity, factor, 1);
    }

    /** Makes a table; the load factor is given by the bits of its float. */
    public ConcurrentHashMap(int capacity, int factor, int concurrency) {
        if (capacity < 0 || concurrency <= 0) {
            throw new IllegalArgumentException();
        }
        jx.LoadFactor.check(factor);
        int least = Math.max(capacity, concurrency);
        this.capacity = jx.LoadFactor.powerOfTwo(jx.LoadFactor.capacityFor(least, factor) + 1);
    }

    public ConcurrentHashMap(Map<? extends K, ? extends V> m) {
        putAll(m);
    }

    // ---- the table

    private static int spread(Object key) {
        int h = key.hashCode();
        return (h ^ h >>> 16) & 0x7fffffff;
    }

    private Node<K, V> find(Object key) {
        int hash = spread(key);
        Node<K, V>[] places = table;
        return places == null ? null : find(places[hash & places.length - 1], hash, key);
    }

    private static <K, V> Node<K, V> find(Node<K, V> chain, int hash, Object key) {
        for (Node<K, V> n = chain; n != null; n = n.next) {
            if (n.hash == hash && (n.key == key || key.equals(n.key))) {
                return n;
            }
        }
        return null;
    }

    /** Owns the place of a hash, and returns what is owned. */
    private Bin lock(int hash) {
        while (true) {
            Bin[] all = bins == null ? makeTable() : bins;
            Bin bin = all[hash & all.length - 1];
            if (bin == null) {
                bin = makeBin(all, hash & all.length - 1);
            }
            jx.Parker.enter(bin);
            if (bins == all) {
                if (bin.isComputing) {
                    jx.Parker.exit(bin);
                    throw new IllegalStateException("Recursive update");
                }
                return bin;
            }
            jx.Parker.exit(bin);
        }
    }

    private static void unlock(Bin bin) {
        jx.Parker.exit(bin);
    }

    private Bin[] makeTable() {
        synchronized (counting) {
            if (bins == null) {
                table = (Node<K, V>[]) new Node[capacity];
                bins = new Bin[capacity];
            }
            return bins;
        }
    }

    private Bin makeBin(Bin[] all, int at) {
        synchronized (counting) {
            if (all[at] == null) {
                all[at] = new Bin();
            }
            return all[at];
        }
    }

    /** Adds an entry at the end of its chain, whose place is owned, and returns how long the chain was. */
    private int add(K key, V value, int hash) {
        int at = hash & table.length - 1;
        Node<K, V> added = new Node<K, V>(hash, key, value, null);
        int length = 0;
        if (table[at] == null) {
            table[at] = added;
        } else {
            Node<K, V> n = table[at];
            for (length = 1; n.next != null; length++) {
                n = n.next;
            }
            n.next = added;
        }
        count(1);
        return length;
    }

    private void count(int more) {
        synchronized (counting) {
            count += more;
        }
    }

    /** Grows the table where the chain that got an entry, or all of them, have become long. No place is owned. */
    private void growAfter(int length) {
        if (length >= LONG_CHAIN && table.length < SMALL_TABLE) {
            reserve(table.length << 1);
        }
        while (count >= limit() && table.length < 1 << 30 && grow()) {
            continue;
        }
    }

    private int limit() {
        return table.length - (table.length >>> 2);
    }

    /** Grows the table until it has room for so many entries. */
    private void reserve(int entries) {
        int wanted = jx.LoadFactor.powerOfTwo(entries + (entries >>> 1) + 1);
        if (table == null) {
            capacity = Math.max(capacity, wanted);
            return;
        }
        while (wanted > limit() && table.length < 1 << 30 && grow()) {
            continue;
        }
    }

    /** Doubles the table, where no function computes a value; returns whether it did. */
    private boolean grow() {
        synchronized (growing) {
            isGrowing = true;
            Bin[] all = bins;
            boolean isFree = true;
            for (int i = 0; i < all.length; i++) {
                isFree &= all[i] == null || !all[i].isComputing;
            }
            if (isFree) {
                growOwned(all);
            }
            isGrowing = false;
            return isFree;
        }
    }

    private void growOwned(Bin[] all) {
        for (int i = 0; i < all.length; i++) {
            jx.Parker.enter(all[i] == null ? makeBin(all, i) : all[i]);
        }
        Node<K, V>[] old = table;
        Node<K, V>[] more = (Node<K, V>[]) new Node[2 * old.length];
        for (int i = 0; i < old.length; i++) {
            if (old[i] != null) {
                split(more, old[i], i, old.length);
            }
        }
        table = more;
        bins = new Bin[more.length];
        for (int i = 0; i < all.length; i++) {
            jx.Parker.exit(all[i]);
        }
    }

    /** Spreads a chain over two places: its last run stays a chain, the entries before it are put in front one by one. */
    private void split(Node<K, V>[] more, Node<K, V> chain, int at, int bit) {
        Node<K, V> run = chain;
        for (Node<K, V> n = chain.next; n != null; n = n.next) {
            if ((n.hash & bit) != (run.hash & bit)) {
                run = n;
            }
        }
        Node<K, V> low = (run.hash & bit) == 0 ? run : null;
        Node<K, V> high = low == null ? run : null;
        for (Node<K, V> n = chain; n != run; n = n.next) {
            if ((n.hash & bit) == 0) {
                low = new Node<K, V>(n.hash, n.key, n.value, low);
            } else {
                high = new Node<K, V>(n.hash, n.key, n.value, high);
            }
        }
        more[at] = low;
        more[at + bit] = high;
    }

    private void unlink(Node<K, V> gone) {
        int at = gone.hash & table.length - 1;
        if (table[at] == gone) {
            table[at] = gone.next;
        } else {
            Node<K, V> n = table[at];
            while (n.next != gone) {
                n = n.next;
            }
            n.next = gone.next;
        }
        count(-1);
    }

    // ---- Map

    @Override
    public int size() {
        return count;
    }

    public long mappingCount() {
        return size();
    }

    @Override
    public boolean isEmpty() {
        return size() == 0;
    }

    @Override
    public V get(Object key) {
        Node<K, V> n = find(key);
        return n == null ? null : n.value;
    }

    @Override
    public V getOrDefault(Object key, V otherwise) {
        V value = get(key);
        return value == null ? otherwise : value;
    }

    @Override
    public boolean containsKey(Object key) {
        return get(key) != null;
    }

    @Override
    public boolean containsValue(Object value) {
        Objects.requireNonNull(value);
        for (V v : values()) {
            if (value.equals(v)) {
                return true;
            }
        }
        return false;
    }

    public boolean contains(Object value) {
        return containsValue(value);
    }

    private static void present(Object key, Object value) {
        if (key == null || value == null) {
            throw new NullPointerException();
        }
    }

    @Override
    public V put(K key, V value) {
        return put(key, value, true);
    }

    @Override
    public V putIfAbsent(K key, V value) {
        return put(key, value, false);
    }

    private V put(K key, V value, boolean replaces) {
        present(key, value);
        int hash = spread(key);
        int length;
        Bin bin = lock(hash);
        try {
            Node<K, V> n = find(key);
            if (n != null) {
                V old = n.value;
                if (replaces) {
                    n.value = value;
                }
                return old;
            }
            length = add(key, value, hash);
        } finally {
            unlock(bin);
        }
        growAfter(length);
        return null;
    }

    @Override
    public void putAll(Map<? extends K, ? extends V> m) {
        reserve(m.size());
        for (Map.Entry<? extends K, ? extends V> e : m.entrySet()) {
            put(e.getKey(), e.getValue());
        }
    }

    @Override
    public V remove(Object key) {
        return change(key, null, null);
    }

    @Override
    public boolean remove(Object key, Object value) {
        Objects.requireNonNull(key);
        return value != null && change(key, value, null) != null;
    }

    @Override
    public boolean replace(K key, V old, V value) {
        present(old, value);
        return change(key, old, value) != null;
    }

    @Override
    public V replace(K key, V value) {
        present(key, value);
        return change(key, null, value);
    }

    /** Gives an entry another value, or removes it where that is null, if it has the expected value or any; returns the old one. */
    private V change(Object key, Object expected, V value) {
        int hash = spread(key);
        Bin bin = lock(hash);
        try {
            Node<K, V> n = find(key);
            if (n == null || expected != null && !expected.equals(n.value)) {
                return null;
            }
            V old = n.value;
            if (value == null) {
                unlink(n);
            } else {
                n.value = value;
            }
            return old;
        } finally {
            unlock(bin);
        }
    }

    @Override
    public void clear() {
        for (int i = 0; bins != null && i < table.length; i++) {
            Bin bin = lock(i);
            try {
                for (Node<K, V> n = table[i]; n != null; n = n.next) {
                    unlink(n);
                }
            } finally {
                unlock(bin);
            }
        }
    }

    // ---- computed values

    /** Owns the place of a hash, and says that a function computes there; the table doesn't grow until it has. */
    private Bin lockToCompute(int hash) {
        while (true) {
            Bin bin = lock(hash);
            bin.isComputing = true;
            if (!isGrowing) {
                return bin;
            }
            unlockComputed(bin);
            synchronized (growing) {
                continue;
            }
        }
    }

    private static void unlockComputed(Bin bin) {
        bin.isComputing = false;
        unlock(bin);
    }

    /** Gives the entry, or a new one, the computed value, or removes it where that is null; returns the length of the chain that grew. */
    private int store(Node<K, V> n, K key, V value, int hash) {
        if (value == null) {
            if (n != null) {
                unlink(n);
            }
        } else if (n == null) {
            return add(key, value, hash);
        } else {
            n.value = value;
        }
        return 0;
    }

    @Override
    public V computeIfAbsent(K key, Function<? super K, ? extends V> function) {
        present(key, function);
        int hash = spread(key);
        V value;
        int length;
        Bin lock = lockToCompute(hash);
        try {
            Node<K, V> n = find(key);
            if (n != null) {
                return n.value;
            }
            value = function.apply(key);
            length = store(null, key, value, hash);
        } finally {
            unlockComputed(lock);
        }
        growAfter(length);
        return value;
    }

    @Override
    public V computeIfPresent(K key, BiFunction<? super K, ? super V, ? extends V> function) {
        return compute(key, function, false);
    }

    @Override
    public V compute(K key, BiFunction<? super K, ? super V, ? extends V> function) {
        return compute(key, function, true);
    }

    private V compute(K key, BiFunction<? super K, ? super V, ? extends V> function, boolean adds) {
        present(key, function);
        int hash = spread(key);
        V value;
        int length;
        Bin lock = lockToCompute(hash);
        try {
            Node<K, V> n = find(key);
            if (n == null && !adds) {
                return null;
            }
            value = function.apply(key, n == null ? null : n.value);
            length = store(n, key, value, hash);
        } finally {
            unlockComputed(lock);
        }
        growAfter(length);
        return value;
    }

    @Override
    public V merge(K key, V value, BiFunction<? super V, ? super V, ? extends V> function) {
        present(key, value);
        Objects.requireNonNull(function);
        int hash = spread(key);
        V merged;
        int length;
        Bin lock = lockToCompute(hash);
        try {
            Node<K, V> n = find(key);
            merged = n == null ? value : function.apply(n.value, value);
            length = store(n, key, merged, hash);
        } finally {
            unlockComputed(lock);
        }
        growAfter(length);
        return merged;
    }

    @Override
    public void forEach(BiConsumer<? super K, ? super V> action) {
        Objects.requireNonNull(action);
        for (Iterator<Map.Entry<K, V>> i = new Entries(); i.hasNext();) {
            Map.Entry<K, V> e = i.next();
            action.accept(e.getKey(), e.getValue());
        }
    }

    @Override
    public void replaceAll(BiFunction<? super K, ? super V, ? extends V> function) {
        for (Iterator<Map.Entry<K, V>> i = new Entries(); i.hasNext();) {
            Map.Entry<K, V> e = i.next();
            compute(e.getKey(), (k, v) -> Objects.requireNonNull(function.apply(k, v)));
        }
    }

    // ---- bulk operations, by one thread

    public void forEach(long parallelism, BiConsumer<? super K, ? super V> action) {
        forEach(action);
    }

    public void forEachKey(long parallelism, Consumer<? super K> action) {
        forEach((k, v) -> action.accept(k));
    }

    public void forEachValue(long parallelism, Consumer<? super V> action) {
        forEach((k, v) -> action.accept(v));
    }

    public void forEachEntry(long parallelism, Consumer<? super Map.Entry<K, V>> action) {
        for (Iterator<Map.Entry<K, V>> i = new Entries(); i.hasNext();) {
            action.accept(i.next());
        }
    }

    public <U> U search(long parallelism, BiFunction<? super K, ? super V, ? extends U> function) {
        for (Map.Entry<K, V> e : entrySet()) {
            U found = function.apply(e.getKey(), e.getValue());
            if (found != null) {
                return found;
            }
        }
        return null;
    }

    public <U> U searchKeys(long parallelism, Function<? super K, ? extends U> function) {
        return search(parallelism, (k, v) -> function.apply(k));
    }

    public <U> U searchValues(long parallelism, Function<? super V, ? extends U> function) {
        return search(parallelism, (k, v) -> function.apply(v));
    }

    public <U> U reduce(long parallelism, BiFunction<? super K, ? super V, ? extends U> transformer,
            BiFunction<? super U, ? super U, ? extends U> reducer) {
        U result = null;
        for (Map.Entry<K, V> e : entrySet()) {
            U u = transformer.apply(e.getKey(), e.getValue());
            if (u != null) {
                result = result == null ? u : reducer.apply(result, u);
            }
        }
        return result;
    }

    public K reduceKeys(long parallelism, BiFunction<? super K, ? super K, ? extends K> reducer) {
        return this.<K>reduce(parallelism, (k, v) -> k, reducer);
    }

    public V reduceValues(long parallelism, BiFunction<? super V, ? super V, ? extends V> reducer) {
        return this.<V>reduce(parallelism, (k, v) -> v, reducer);
    }

    public <U> U reduceKeys(long parallelism, Function<? super K, ? extends U> transformer,
            BiFunction<? super U, ? super U, ? extends U> reducer) {
        return this.<U>reduce(parallelism, (k, v) -> transformer.apply(k), reducer);
    }

    public <U> U reduceValues(long parallelism, Function<? super V, ? extends U> transformer,
            BiFunction<? super U, ? super U, ? extends U> reducer) {
        return this.<U>reduce(parallelism, (k, v) -> transformer.apply(v), reducer);
    }

    public long reduceValuesToLong(long parallelism, java.util.function.ToLongFunction<? super V> transformer, long basis,
            java.util.function.LongBinaryOperator reducer) {
        long result = basis;
        for (V v : values()) {
            result = reducer.applyAsLong(result, transformer.applyAsLong(v));
        }
        return result;
    }

    public int reduceValuesToInt(long parallelism, java.util.function.ToIntFunction<? super V> transformer, int basis,
            java.util.function.IntBinaryOperator reducer) {
        int result = basis;
        for (V v : values()) {
            result = reducer.applyAsInt(result, transformer.applyAsInt(v));
        }
        return result;
    }

    // ---- iterators and views

    /** Iterates over the table as it was at the start, with the chains as they are. */
    private final class Entries implements Iterator<Map.Entry<K, V>>, Enumeration<Map.Entry<K, V>> {
        private final Node<K, V>[] chains;
        private int at;
        private Node<K, V> next;
        private Node<K, V> last;

        Entries() {
            chains = table;
            step();
        }

        private void step() {
            if (next != null) {
                next = next.next;
            }
            while (next == null && chains != null && at < chains.length) {
                next = chains[at++];
            }
        }

        public boolean hasNext() {
            return next != null;
        }

        public Map.Entry<K, V> next() {
            if (next == null) {
                throw new NoSuchElementException();
            }
            last = next;
            step();
            return new Entry<K, V>(ConcurrentHashMap.this, last.key, last.value);
        }

        public void remove() {
            if (last == null) {
                throw new IllegalStateException();
            }
            ConcurrentHashMap.this.remove(last.key);
            last = null;
        }

        public boolean hasMoreElements() {
            return hasNext();
        }

        public Map.Entry<K, V> nextElement() {
            return next();
        }
    }

    /** An entry that writes its value through. */
    private static final class Entry<K, V> extends AbstractMap.SimpleEntry<K, V> {
        private final ConcurrentHashMap<K, V> map;

        Entry(ConcurrentHashMap<K, V> map, K key, V value) {
            super(key, value);
            this.map = map;
        }

        @Override
        public V setValue(V value) {
            map.put(getKey(), value);
            return super.setValue(value);
        }
    }

    /** Iterates over the keys or the values. */
    private final class Parts<T> implements Iterator<T>, Enumeration<T> {
        private final Entries entries = new Entries();
        private final boolean keys;

        Parts(boolean keys) {
            this.keys = keys;
        }

        public boolean hasNext() {
            return entries.hasNext();
        }

        public T next() {
            Map.Entry<K, V> e = entries.next();
            return (T) (keys ? e.getKey() : e.getValue());
        }

        public void remove() {
            entries.remove();
        }

        public boolean hasMoreElements() {
            return hasNext();
        }

        public T nextElement() {
            return next();
        }
    }

    public Enumeration<K> keys() {
        return new Parts<K>(true);
    }

    public Enumeration<V> elements() {
        return new Parts<V>(false);
    }

    @Override
    public KeySetView<K, V> keySet() {
        return new KeySetView<K, V>(this, null);
    }

    public KeySetView<K, V> keySet(V value) {
        return new KeySetView<K, V>(this, Objects.requireNonNull(value));
    }

    public static <T> KeySetView<T, Boolean> newKeySet() {
        return new KeySetView<T, Boolean>(new ConcurrentHashMap<T, Boolean>(), Boolean.TRUE);
    }

    public static <T> KeySetView<T, Boolean> newKeySet(int capacity) {
        return new KeySetView<T, Boolean>(new ConcurrentHashMap<T, Boolean>(capacity), Boolean.TRUE);
    }

    private Iterator<K> keyIterator() {
        return new Parts<K>(true);
    }

    /** The keys; where a value is given, keys can be added. */
    public static class KeySetView<K, V> extends AbstractSet<K> implements Set<K>, java.io.Serializable {
        private final ConcurrentHashMap<K, V> map;
        private final V value;

        KeySetView(ConcurrentHashMap<K, V> map, V value) {
            this.map = map;
            this.value = value;
        }

        public ConcurrentHashMap<K, V> getMap() {
            return map;
        }

        public V getMappedValue() {
            return value;
        }

        @Override
        public int size() {
            return map.size();
        }

        @Override
        public boolean contains(Object o) {
            return map.containsKey(o);
        }

        @Override
        public boolean remove(Object o) {
            return map.remove(o) != null;
        }

        @Override
        public void clear() {
            map.clear();
        }

        @Override
        public Iterator<K> iterator() {
            return map.keyIterator();
        }

        @Override
        public boolean add(K key) {
            if (value == null) {
                throw new UnsupportedOperationException();
            }
            return map.putIfAbsent(key, value) == null;
        }
    }

    @Override
    public Collection<V> values() {
        return new AbstractCollection<V>() {
            public int size() {
                return ConcurrentHashMap.this.size();
            }

            public Iterator<V> iterator() {
                return new Parts<V>(false);
            }
        };
    }

    @Override
    public Set<Map.Entry<K, V>> entrySet() {
        return new AbstractSet<Map.Entry<K, V>>() {
            public int size() {
                return ConcurrentHashMap.this.size();
            }

            public Iterator<Map.Entry<K, V>> iterator() {
                return new Entries();
            }
        };
    }
}
