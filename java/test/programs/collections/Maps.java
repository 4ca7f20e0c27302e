import java.util.*;

/** HashMap, TreeMap, LinkedHashMap, their default methods, and an LRU cache. */
public class Maps {
    static class Lru<K, V> extends LinkedHashMap<K, V> {
        private final int room;

        Lru(int room) {
            super(16, 0.75f, true);
            this.room = room;
        }

        @Override
        protected boolean removeEldestEntry(Map.Entry<K, V> eldest) {
            return size() > room;
        }
    }

    enum Day { MON, TUE, WED, SUN }

    public static void main(String[] args) {
        Map<String, Integer> counts = new HashMap<>();
        for (String w : "the cat and the dog and the bird saw a cow on the hill by the sea".split(" ")) {
            counts.merge(w, 1, Integer::sum);
        }
        System.out.println(counts);
        System.out.println(new TreeMap<>(counts));
        System.out.println(counts.getOrDefault("fish", 0) + " " + counts.containsKey("cat") + " " + counts.containsValue(6) + " " + counts.size());
        counts.putIfAbsent("fish", 9);
        counts.computeIfAbsent("ox", k -> k.length());
        counts.computeIfPresent("cat", (k, v) -> v + 10);
        counts.compute("dog", (k, v) -> v == null ? 1 : null);
        counts.replaceAll((k, v) -> v * 2);
        counts.replace("sea", 5);
        counts.remove("hill", 1);
        System.out.println(counts + " " + counts.remove("a") + " " + counts.hashCode());
        int total = 0;
        for (Map.Entry<String, Integer> e : counts.entrySet()) {
            total += e.getValue() * e.getKey().length();
        }
        System.out.println(total + " " + counts.keySet() + " " + counts.values());
        counts.entrySet().removeIf(e -> e.getValue() > 3);
        counts.keySet().remove("on");
        counts.forEach((k, v) -> System.out.print(k + ":" + v + ";"));
        System.out.println();
        TreeMap<Integer, String> tree = new TreeMap<>(Comparator.reverseOrder());
        for (int i = 0; i < 10; i++) {
            tree.put(i * i % 23, "v" + i);
        }
        System.out.println(tree + " " + tree.firstKey() + " " + tree.lastEntry() + " " + tree.floorKey(10) + " " + tree.ceilingKey(10) + " " + tree.headMap(9) + " " + tree.tailMap(4, false) + " " + tree.subMap(18, 2) + tree.descendingMap().firstKey());
        System.out.println(tree.pollFirstEntry() + " " + tree.higherKey(4) + " " + tree.lowerEntry(4) + " " + tree.navigableKeySet());
        Lru<String, Integer> lru = new Lru<>(3);
        for (String s : "a b c a d a e".split(" ")) {
            lru.put(s, lru.getOrDefault(s, 0) + 1);
        }
        System.out.println(lru);
        EnumMap<Day, Integer> days = new EnumMap<>(Day.class);
        days.put(Day.SUN, 1);
        days.put(Day.MON, 2);
        System.out.println(days + " " + days.containsKey(Day.TUE) + " " + EnumSet.of(Day.WED, Day.MON) + EnumSet.complementOf(EnumSet.of(Day.TUE)) + EnumSet.range(Day.TUE, Day.SUN) + EnumSet.allOf(Day.class) + EnumSet.noneOf(Day.class));
        Map<Integer, Integer> big = new HashMap<>();
        for (int i = 0; i < 300; i++) {
            big.put(i * 7919 % 1009, i);
        }
        long order = 0;
        for (int k : big.keySet()) {
            order = order * 31 + k;
        }
        System.out.println(big.size() + " " + order);
        Map<String, Integer> table = new Hashtable<>();
        for (int i = 0; i < 30; i++) {
            table.put("key" + i, i);
        }
        System.out.println(table);
        Map<String, Integer> identity = new IdentityHashMap<>();
        identity.put(new String("k"), 1);
        identity.put(new String("k"), 2);
        System.out.println(identity.size() + " " + identity.get("k"));
        Iterator<String> it = table.keySet().iterator();
        while (it.hasNext()) {
            if (it.next().length() > 4) {
                it.remove();
            }
        }
        System.out.println(table.size() + " " + Collections.unmodifiableMap(new TreeMap<>(table)));
        Map<String, List<Integer>> groups = new TreeMap<>();
        for (int i = 1; i <= 10; i++) {
            groups.computeIfAbsent(i % 3 == 0 ? "fizz" : "other", k -> new ArrayList<>()).add(i);
        }
        System.out.println(groups);
        try {
            for (String k : counts.keySet()) {
                counts.put(k + "x", 1);
            }
        } catch (ConcurrentModificationException e) {
            System.out.println(e);
        }
        System.out.println(new HashMap<>(Collections.singletonMap(null, null)) + " " + new AbstractMap.SimpleEntry<>("k", 1));
    }
}
