import java.util.*;
import java.util.concurrent.*;

/** HashSet, LinkedHashSet, TreeSet, BitSet, and the concurrent sets. */
public class Sets {
    public static void main(String[] args) {
        Set<String> h = new HashSet<>(Arrays.asList("banana", "apple", "cherry", "date", "elderberry", "fig"));
        System.out.println(h + " " + h.contains("fig") + " " + h.add("fig") + " " + h.remove("date") + " " + h.size());
        Set<String> l = new LinkedHashSet<>(Arrays.asList("z", "a", "m", "a"));
        System.out.println(l + " " + l.hashCode() + " " + l.equals(new HashSet<>(Arrays.asList("a", "m", "z"))));
        TreeSet<Integer> t = new TreeSet<>();
        for (int i = 0; i < 20; i++) {
            t.add(i * 13 % 31);
        }
        System.out.println(t + " " + t.first() + " " + t.last() + " " + t.floor(12) + " " + t.higher(12) + " " + t.headSet(5) + t.tailSet(25) + t.subSet(5, true, 9, true) + " " + t.descendingSet() + t.pollFirst() + t.pollLast());
        Set<Integer> a = new TreeSet<>(Arrays.asList(1, 2, 3, 4)), b = new TreeSet<>(Arrays.asList(3, 4, 5));
        Set<Integer> union = new TreeSet<>(a), both = new TreeSet<>(a), less = new TreeSet<>(a);
        union.addAll(b);
        both.retainAll(b);
        less.removeAll(b);
        System.out.println(union + " " + both + " " + less + " " + union.containsAll(a) + " " + Collections.disjoint(both, less));
        BitSet bits = new BitSet();
        bits.set(1);
        bits.set(5, 9);
        bits.flip(6);
        BitSet other = new BitSet(100);
        other.set(7, 70);
        System.out.println(bits + " " + bits.cardinality() + " " + bits.nextSetBit(2) + " " + bits.nextClearBit(5) + " " + bits.length() + " " + bits.get(7));
        bits.or(other);
        bits.andNot(new BitSet());
        bits.clear(10, 60);
        System.out.println(bits + " " + bits.intersects(other) + " " + bits.hashCode());
        Set<String> skip = new ConcurrentSkipListSet<>(Arrays.asList("q", "w", "e", "r"));
        Set<Integer> cow = new CopyOnWriteArraySet<>(Arrays.asList(3, 1, 3));
        Set<Integer> keys = ConcurrentHashMap.newKeySet();
        keys.addAll(Arrays.asList(9, 8, 7));
        System.out.println(skip + " " + cow + " " + keys);
        Iterator<Integer> it = t.iterator();
        int removed = 0;
        while (it.hasNext()) {
            if (it.next() % 2 == 0) {
                it.remove();
                removed++;
            }
        }
        System.out.println(removed + " " + t + Collections.unmodifiableSet(t).getClass().getSimpleName());
        try {
            new TreeSet<Object>(Arrays.asList(1)).add("x");
        } catch (ClassCastException e) {
            System.out.println("can't compare");
        }
        try {
            t.add(null);
        } catch (NullPointerException e) {
            System.out.println("no null");
        }
        StringTokenizer st = new StringTokenizer("a b,c", " ,");
        System.out.print(st.countTokens());
        while (st.hasMoreTokens()) {
            System.out.print(" " + st.nextToken());
        }
        System.out.println();
    }
}
