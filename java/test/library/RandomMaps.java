import java.util.*;
import java.util.concurrent.*;

/** 600 random operations on each map. */
public class RandomMaps {
    static long seed;
    static long digest;

    static int next(int bound) {
        seed = seed * 6364136223846793005L + 1442695040888963407L;
        return (int) ((seed >>> 33) % bound);
    }

    static void note(Object o) {
        digest = digest * 31 + String.valueOf(o).hashCode();
    }

    static void operate(Map<String, Integer> m) {
        int x = next(40);
        String k = "key" + x * 31 % 97;
        int v = next(1000);
        switch (next(16)) {
            case 0:
            case 1:
            case 2:
                note(m.put(k, v));
                break;
            case 3:
                note(m.remove(k));
                break;
            case 4:
                note(m.get(k) + " " + m.containsKey(k) + " " + m.getOrDefault(k, -1));
                break;
            case 5:
                note(m.putIfAbsent(k, v));
                break;
            case 6:
                note(m.merge(k, 1, (a, b) -> a > 500 ? null : a + b));
                break;
            case 7:
                note(m.computeIfAbsent(k, String::length));
                break;
            case 8:
                note(m.computeIfPresent(k, (a, b) -> b % 2 == 0 ? null : b * 3));
                break;
            case 9:
                note(m.compute(k, (a, b) -> b == null ? 7 : b + 1));
                break;
            case 10:
                note(m.replace(k, v) + " " + m.replace(k, v, v + 1));
                break;
            case 11:
                m.replaceAll((a, b) -> b ^ 5);
                break;
            case 12:
                note(m.entrySet().removeIf(e -> e.getValue() % 11 == 3));
                break;
            case 13:
                Iterator<String> i = m.keySet().iterator();
                while (i.hasNext()) {
                    if (i.next().endsWith("3")) {
                        i.remove();
                    }
                }
                break;
            case 14:
                for (Map.Entry<String, Integer> e : m.entrySet()) {
                    note(e);
                }
                break;
            default:
                note(m.toString() + m.hashCode() + m.values() + m.equals(new HashMap<>(m)));
        }
    }

    static void run(String name, Map<String, Integer> m) {
        seed = name.hashCode();
        digest = 0;
        for (int i = 1; i <= 600; i++) {
            try {
                operate(m);
            } catch (RuntimeException e) {
                note(e.getClass().getName() + e.getMessage());
            }
            note(m.size());
            if (i % 100 == 0) {
                System.out.println(name + " " + i + " " + Long.toHexString(digest) + " " + m.size());
            }
        }
        System.out.println(m);
    }

    public static void main(String[] args) {
        run("HashMap", new HashMap<>());
        run("LinkedHashMap", new LinkedHashMap<>());
        run("access order", new LinkedHashMap<>(8, 0.75f, true));
        run("small factor", new HashMap<>(4, 0.5f));
        run("TreeMap", new TreeMap<>());
        run("Hashtable", new Hashtable<>());
        run("ConcurrentHashMap", new ConcurrentHashMap<>());
        run("ConcurrentHashMap of 100", new ConcurrentHashMap<>(100));
        run("ConcurrentSkipListMap", new ConcurrentSkipListMap<>());
    }
}
