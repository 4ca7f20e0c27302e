import java.util.*;
import java.util.concurrent.*;

/** ConcurrentHashMap, ConcurrentSkipListMap, CopyOnWriteArrayList, synchronized views. */
public class ConcurrentMaps {
    public static void main(String[] args) throws Exception {
        ConcurrentHashMap<String, Integer> m = new ConcurrentHashMap<>();
        for (int i = 0; i < 40; i++) {
            m.put("k" + i * 7, i);
        }
        System.out.println(m);
        System.out.println(m.size() + " " + m.mappingCount() + " " + m.getOrDefault("zz", -1) + " " + m.putIfAbsent("k7", 0) + " " + m.computeIfAbsent("new", String::length) + " " + m.merge("new", 5, Integer::sum) + " " + m.compute("new", (k, v) -> null) + " " + m.replace("k7", 1, 77) + " " + m.remove("k14", 3) + " " + m.contains(39));
        System.out.println(m.reduceValues(Long.MAX_VALUE, Integer::sum) + " " + m.search(Long.MAX_VALUE, (k, v) -> v == 5 ? k : null) + " " + m.reduce(Long.MAX_VALUE, (k, v) -> v > 35 ? k : null, (a, b) -> a.compareTo(b) > 0 ? a : b));
        m.forEach(Long.MAX_VALUE, (k, v) -> {
            if (v > 38) {
                System.out.println(k + "=" + v);
            }
        });
        for (String k : m.keySet()) {
            if (k.length() > 2) {
                m.remove(k);
            }
        }
        System.out.println(m + " " + Collections.list(m.keys()));
        try {
            m.put(null, 1);
        } catch (NullPointerException e) {
            System.out.println("no null");
        }
        ConcurrentSkipListMap<Integer, String> s = new ConcurrentSkipListMap<>();
        for (int i = 0; i < 12; i++) {
            s.put(i * 5 % 12, "v" + i);
        }
        System.out.println(s + " " + s.firstKey() + s.lastEntry() + s.floorKey(4) + " " + s.headMap(3) + s.descendingMap().firstKey() + " " + s.pollFirstEntry() + s.ceilingEntry(100));
        CopyOnWriteArrayList<Integer> c = new CopyOnWriteArrayList<>(Arrays.asList(1, 2, 3));
        for (int x : c) {
            c.add(x * 10);
        }
        System.out.println(c + " " + c.addIfAbsent(10) + " " + c.addAllAbsent(Arrays.asList(3, 4)) + " " + c.indexOf(20));
        Map<Integer, Integer> sync = Collections.synchronizedMap(new TreeMap<>());
        ConcurrentMap<Integer, Integer> counts = new ConcurrentHashMap<>();
        List<Integer> list = new Vector<>();
        Thread[] threads = new Thread[3];
        for (int t = 0; t < 3; t++) {
            threads[t] = new Thread(() -> {
                for (int i = 0; i < 6; i++) {
                    counts.merge(i % 3, 1, Integer::sum);
                    sync.merge(i, 1, Integer::sum);
                    list.add(i);
                }
            });
            threads[t].start();
        }
        for (Thread t : threads) {
            t.join();
        }
        System.out.println(counts + " " + sync + " " + list.size());
    }
}
