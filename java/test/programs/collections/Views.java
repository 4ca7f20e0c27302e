import java.util.*;

/** Unmodifiable, synchronized, checked and sub views; algorithms of Collections. */
public class Views {
    interface Step {
        void run();
    }

    static void refused(Step s) {
        try {
            s.run();
            System.out.println("allowed");
        } catch (UnsupportedOperationException | IllegalStateException | ClassCastException | IndexOutOfBoundsException e) {
            System.out.println(e.getClass().getSimpleName());
        }
    }

    public static void main(String[] args) {
        List<Integer> base = new ArrayList<>(Arrays.asList(1, 2, 3, 4, 5, 6));
        List<Integer> fixed = Collections.unmodifiableList(base), part = base.subList(1, 4);
        part.set(0, 20);
        part.add(99);
        System.out.println(base + " " + fixed + " " + part);
        part.clear();
        System.out.println(base + " " + fixed.size());
        refused(() -> fixed.add(1));
        refused(() -> Collections.emptyMap().put(null, null));
        refused(() -> Arrays.asList(1, 2).remove(0));
        refused(() -> Arrays.asList(1, 2).set(0, 5));
        refused(() -> Collections.singleton(1).clear());
        refused(() -> Collections.nCopies(2, "x").set(0, "y"));
        refused(() -> {
            List raw = Collections.checkedList(new ArrayList<String>(), String.class);
            raw.add(5);
        });
        refused(() -> base.subList(2, 9));
        List<Integer> l = new ArrayList<>(Arrays.asList(5, 3, 8, 1));
        Collections.addAll(l, 9, 2);
        Collections.sort(l, Collections.reverseOrder());
        System.out.println(l + " " + Collections.binarySearch(l, 3, Collections.reverseOrder()) + " " + Collections.indexOfSubList(l, Arrays.asList(3, 2)) + " " + Collections.max(l, Comparator.comparing(x -> x % 5)));
        Collections.fill(l.subList(0, 2), 0);
        Collections.replaceAll(l, 0, 7);
        Collections.swap(l, 0, l.size() - 1);
        Collections.rotate(l, -1);
        System.out.println(l + " " + Collections.frequency(l, 7) + " " + Collections.disjoint(l, Arrays.asList(100)));
        Map<String, Integer> m = new TreeMap<>();
        for (String s : "d a c b".split(" ")) {
            m.put(s, s.charAt(0) - 'a');
        }
        SortedMap<String, Integer> head = ((TreeMap<String, Integer>) m).headMap("c");
        head.put("aa", 9);
        m.keySet().retainAll(Arrays.asList("a", "aa", "d"));
        m.values().remove(3);
        System.out.println(m + " " + head + " " + ((TreeMap<String, Integer>) m).descendingKeySet());
        try {
            head.put("z", 1);
        } catch (IllegalArgumentException e) {
            System.out.println(e.getMessage());
        }
        Set<String> fromMap = Collections.newSetFromMap(new LinkedHashMap<>());
        fromMap.add("q");
        fromMap.add("q");
        Queue<Integer> lifo = Collections.asLifoQueue(new ArrayDeque<>());
        lifo.add(1);
        lifo.add(2);
        System.out.println(fromMap + " " + lifo.peek() + " " + Collections.synchronizedList(l).size() + " " + Collections.unmodifiableMap(m).equals(m) + " " + new ArrayList<>(Collections.emptyList()));
        List<Integer> shuffled = new ArrayList<>();
        for (int i = 0; i < 10; i++) {
            shuffled.add(i);
        }
        Collections.shuffle(shuffled, new Random(7));
        System.out.println(shuffled);
    }
}
