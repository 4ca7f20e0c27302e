import java.util.*;
import java.util.concurrent.*;

/** 600 random operations on each queue and set. */
public class RandomQueues {
    static long seed;
    static long digest;

    static int next(int bound) {
        seed = seed * 6364136223846793005L + 1442695040888963407L;
        return (int) ((seed >>> 33) % bound);
    }

    static void note(Object o) {
        digest = digest * 31 + String.valueOf(o).hashCode();
    }

    static void operate(Collection<Integer> c) {
        int x = next(60);
        Queue<Integer> q = c instanceof Queue ? (Queue<Integer>) c : null;
        Deque<Integer> d = c instanceof Deque ? (Deque<Integer>) c : null;
        NavigableSet<Integer> n = c instanceof NavigableSet ? (NavigableSet<Integer>) c : null;
        switch (next(14)) {
            case 0:
            case 1:
            case 2:
                note(c.add(x));
                break;
            case 3:
                note(c.remove(x));
                break;
            case 4:
                note(c.contains(x));
                break;
            case 5:
                note(q == null ? c.isEmpty() : q.poll());
                break;
            case 6:
                note(q == null ? c.size() : q.peek() + " " + q.offer(x));
                break;
            case 7:
                note(c.removeIf(v -> v % 9 == x % 9));
                break;
            case 8:
                note(c.addAll(Arrays.asList(x, x + 1)));
                break;
            case 9:
                note(d == null ? 0 : d.pollLast() + " " + d.offerFirst(x) + " " + d.peekLast());
                break;
            case 10:
                note(n == null ? 0 : n.floor(x) + " " + n.higher(x) + " " + n.headSet(x) + n.descendingSet());
                break;
            case 11:
                note(q == null ? 0 : q.element() + q.remove());
                break;
            case 12:
                int sum = 0;
                for (int v : c) {
                    sum += v;
                }
                note(sum);
                break;
            default:
                note(new TreeSet<>(c) + Arrays.toString(c.toArray()));
        }
    }

    static void run(String name, Collection<Integer> c) {
        seed = name.hashCode();
        digest = 0;
        for (int i = 1; i <= 600; i++) {
            try {
                operate(c);
            } catch (RuntimeException e) {
                note(e.getClass().getName() + e.getMessage());
            }
            note(c.size());
            if (i % 150 == 0) {
                System.out.println(name + " " + i + " " + Long.toHexString(digest) + " " + c.size());
            }
        }
        System.out.println(c);
    }

    public static void main(String[] args) {
        run("ArrayDeque", new ArrayDeque<>());
        run("PriorityQueue", new PriorityQueue<>());
        run("LinkedBlockingDeque", new LinkedBlockingDeque<>(30));
        run("ArrayBlockingQueue", new ArrayBlockingQueue<>(20));
        run("ConcurrentLinkedQueue", new ConcurrentLinkedQueue<>());
        run("ConcurrentLinkedDeque", new ConcurrentLinkedDeque<>());
        run("PriorityBlockingQueue", new PriorityBlockingQueue<>());
        run("HashSet", new HashSet<>());
        run("LinkedHashSet", new LinkedHashSet<>());
        run("TreeSet", new TreeSet<>());
        run("ConcurrentSkipListSet", new ConcurrentSkipListSet<>());
        run("CopyOnWriteArrayList", new CopyOnWriteArrayList<>());
    }
}
