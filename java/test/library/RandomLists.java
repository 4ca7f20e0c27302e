import java.util.*;

/** 600 random operations on each list, by the same numbers for `java` and for the library. */
public class RandomLists {
    static long seed;
    static long digest;

    static int next(int bound) {
        seed = seed * 6364136223846793005L + 1442695040888963407L;
        return (int) ((seed >>> 33) % bound);
    }

    static void note(Object o) {
        digest = digest * 31 + String.valueOf(o).hashCode();
    }

    static void operate(List<Integer> l) {
        int x = next(50);
        int at = next(l.size() + 2);
        switch (next(18)) {
            case 0:
            case 1:
            case 2:
                note(l.add(x));
                break;
            case 3:
                l.add(at, x);
                break;
            case 4:
                note(l.remove(at));
                break;
            case 5:
                note(l.remove((Object) x));
                break;
            case 6:
                note(l.set(at, x));
                break;
            case 7:
                note(l.get(at));
                break;
            case 8:
                note(l.indexOf(x) + l.lastIndexOf(x) * 100 + (l.contains(x) ? 1 : 0));
                break;
            case 9:
                note(l.addAll(Arrays.asList(x, x + 1, x + 2)));
                break;
            case 10:
                note(l.removeIf(v -> v % 7 == x % 7));
                break;
            case 11:
                l.replaceAll(v -> v + 1);
                break;
            case 12:
                l.sort(x % 2 == 0 ? null : Comparator.reverseOrder());
                break;
            case 13:
                note(l.subList(Math.min(at, 3), at));
                break;
            case 14:
                ListIterator<Integer> it = l.listIterator(at);
                while (it.hasPrevious()) {
                    if (it.previous() == x) {
                        it.remove();
                    }
                }
                break;
            case 15:
                note(l.hashCode() + " " + l.equals(new ArrayList<>(l)));
                break;
            case 16:
                note(l.retainAll(new HashSet<>(Arrays.asList(x, x + 1, x + 2, x + 3, x + 4, x + 5, x - 1, x - 2, x - 3))));
                break;
            default:
                note(Arrays.toString(l.toArray(new Integer[0])));
        }
    }

    static void run(String name, List<Integer> l) {
        seed = name.hashCode();
        digest = 0;
        for (int i = 1; i <= 600; i++) {
            try {
                operate(l);
            } catch (RuntimeException e) {
                note(e.getClass().getName() + e.getMessage());
            }
            note(l.size());
            if (i % 100 == 0) {
                System.out.println(name + " " + i + " " + Long.toHexString(digest) + " " + l.size());
            }
        }
        System.out.println(l);
    }

    public static void main(String[] args) {
        run("ArrayList", new ArrayList<>());
        run("LinkedList", new LinkedList<>());
        run("Vector", new Vector<>());
    }
}
