import java.util.*;

/** ArrayList, LinkedList, Arrays, Collections. */
public class Lists {
    public static void main(String[] args) {
        List<Integer> list = new ArrayList<>();
        for (int i = 10; i > 0; i--) {
            list.add(i * 7 % 11);
        }
        System.out.println(list + " " + list.size() + " " + list.contains(3) + " " + list.indexOf(5));
        Collections.sort(list);
        System.out.println(list + " " + Collections.binarySearch(list, 4) + " " + Collections.max(list) + " " + Collections.min(list));
        list.sort(Comparator.reverseOrder());
        System.out.println(list);
        list.removeIf(x -> x % 2 == 0);
        list.replaceAll(x -> x * x);
        System.out.println(list + " " + list.subList(1, 3));
        list.addAll(1, Arrays.asList(-1, -2));
        list.set(0, 0);
        System.out.println(list + " " + list.hashCode() + " " + list.equals(new LinkedList<>(list)));
        Collections.reverse(list);
        Collections.swap(list, 0, 1);
        System.out.println(list + " " + Collections.frequency(list, 9));
        Collections.shuffle(list, new Random(42));
        System.out.println(list);
        Collections.rotate(list, 2);
        System.out.println(list + " " + Collections.nCopies(3, "x") + Collections.emptyList() + Collections.singletonList(1));
        LinkedList<String> linked = new LinkedList<>(Arrays.asList("b", "c"));
        linked.addFirst("a");
        linked.addLast("d");
        System.out.println(linked + " " + linked.getFirst() + linked.peekLast() + linked.poll() + linked.pop() + linked + linked.removeLast());
        ListIterator<Integer> it = list.listIterator();
        while (it.hasNext()) {
            int x = it.next();
            if (x < 0) {
                it.remove();
            } else if (x > 20) {
                it.set(x + 100);
                it.add(1);
            }
        }
        System.out.println(list);
        int[] a = {5, 3, 9, 1};
        Arrays.sort(a);
        System.out.println(Arrays.toString(a) + " " + Arrays.binarySearch(a, 5) + " " + Arrays.equals(a, a.clone()) + " " + Arrays.hashCode(a));
        int[] b = Arrays.copyOf(a, 6);
        Arrays.fill(b, 4, 6, 8);
        System.out.println(Arrays.toString(b) + Arrays.toString(Arrays.copyOfRange(b, 1, 3)) + Arrays.stream(b).sum());
        Integer[] boxed = {3, 1, 2};
        Arrays.sort(boxed, Collections.reverseOrder());
        System.out.println(Arrays.asList(boxed) + " " + Arrays.deepToString(new int[][] {{1, 2}, {3}}) + Arrays.deepEquals(new int[][] {{1}}, new int[][] {{1}}));
        String[] words = {"pear", "fig", "apple", "kiwi"};
        Arrays.sort(words, Comparator.comparing(String::length).thenComparing(Comparator.naturalOrder()));
        System.out.println(String.join(" ", words));
        String[] copy = new ArrayList<>(Arrays.asList(words)).toArray(new String[0]);
        System.out.println(copy.length + copy[0] + " " + copy.getClass().getSimpleName());
        Object[] objects = list.toArray();
        System.out.println(objects.length + " " + objects.getClass().getName());
        List<List<Integer>> table = new ArrayList<>();
        for (int i = 0; i < 4; i++) {
            table.add(new ArrayList<>());
            for (int j = 0; j <= i; j++) {
                table.get(i).add(j == 0 || j == i ? 1 : table.get(i - 1).get(j - 1) + table.get(i - 1).get(j));
            }
        }
        System.out.println(table);
        Vector<Integer> v = new Vector<>(Arrays.asList(1, 2, 3));
        Stack<Integer> s = new Stack<>();
        s.push(4);
        s.push(5);
        System.out.println(v.elementAt(1) + " " + v.lastElement() + " " + s.peek() + s.pop() + s + s.search(4) + s.empty());
        int[] big = new int[500];
        long seed = 7;
        for (int i = 0; i < big.length; i++) {
            seed = seed * 1103515245 + 12345 & 0x7fffffff;
            big[i] = (int) (seed % 1000);
        }
        Arrays.sort(big);
        boolean sorted = true;
        for (int i = 1; i < big.length; i++) {
            sorted &= big[i - 1] <= big[i];
        }
        System.out.println(sorted + " " + big[0] + " " + big[499] + " " + Arrays.hashCode(big));
    }
}
