package java.util;

/** A set over the keys of a hash table. */
public class HashSet<E> extends AbstractSet<E> implements Set<E>, Cloneable, java.io.Serializable {
    private final HashMap<E, Object> map;

    public HashSet() {
        map = new HashMap<E, Object>();
    }

    public HashSet(int capacity) {
        map = new HashMap<E, Object>(capacity);
    }

    public HashSet(int capacity, int factor) {
        map = new HashMap<E, Object>(capacity, factor);
    }

    public HashSet(Collection<? extends E> c) {
        map = new HashMap<E, Object>(Math.max(jx.LoadFactor.capacityFor(c.size(), jx.LoadFactor.DEFAULT) + 1, 16));
        addAll(c);
    }

    /** Makes a set over this table. */
    HashSet(HashMap<E, Object> map) {
        this.map = map;
    }

    @Override
    public Iterator<E> iterator() {
        return map.keySet().iterator();
    }

    @Override
    public int size() {
        return map.size();
    }

    @Override
    public boolean isEmpty() {
        return map.isEmpty();
    }

    @Override
    public boolean contains(Object o) {
        return map.containsKey(o);
    }

    @Override
    public boolean add(E e) {
        return map.put(e, Boolean.TRUE) == null;
    }

    @Override
    public boolean remove(Object o) {
        return map.remove(o) != null;
    }

    @Override
    public void clear() {
        map.clear();
    }

    @Override
    public Object clone() {
        return new HashSet<E>((HashMap<E, Object>) map.clone());
    }
}
