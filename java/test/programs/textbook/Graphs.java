import java.util.*;

/** Breadth first, depth first, topological order, shortest paths, connected components. */
public class Graphs {
    private final Map<String, Map<String, Integer>> edges = new TreeMap<>();

    void edge(String a, String b, int cost) {
        edges.computeIfAbsent(a, k -> new TreeMap<>()).put(b, cost);
        edges.computeIfAbsent(b, k -> new TreeMap<>());
    }

    List<String> breadthFirst(String from) {
        List<String> order = new ArrayList<>();
        Set<String> seen = new HashSet<>(Collections.singleton(from));
        Queue<String> queue = new LinkedList<>(seen);
        while (!queue.isEmpty()) {
            String at = queue.remove();
            order.add(at);
            for (String next : edges.get(at).keySet()) {
                if (seen.add(next)) {
                    queue.add(next);
                }
            }
        }
        return order;
    }

    void depthFirst(String at, Set<String> seen, Deque<String> finished) {
        if (!seen.add(at)) {
            return;
        }
        edges.get(at).keySet().forEach(next -> depthFirst(next, seen, finished));
        finished.push(at);
    }

    Map<String, Integer> shortest(String from) {
        Map<String, Integer> best = new TreeMap<>();
        PriorityQueue<Map.Entry<String, Integer>> open = new PriorityQueue<>(Map.Entry.comparingByValue());
        open.add(new AbstractMap.SimpleEntry<>(from, 0));
        while (!open.isEmpty()) {
            Map.Entry<String, Integer> e = open.poll();
            if (best.putIfAbsent(e.getKey(), e.getValue()) == null) {
                edges.get(e.getKey()).forEach((next, cost) -> open.add(new AbstractMap.SimpleEntry<>(next, e.getValue() + cost)));
            }
        }
        return best;
    }

    public static void main(String[] args) {
        Graphs g = new Graphs();
        g.edge("A", "B", 4);
        g.edge("A", "C", 1);
        g.edge("C", "B", 2);
        g.edge("B", "D", 5);
        g.edge("C", "D", 8);
        g.edge("D", "E", 3);
        g.edge("X", "Y", 1);
        System.out.println(g.breadthFirst("A"));
        Deque<String> finished = new ArrayDeque<>();
        Set<String> seen = new LinkedHashSet<>();
        for (String v : g.edges.keySet()) {
            g.depthFirst(v, seen, finished);
        }
        System.out.println(finished + " " + seen);
        System.out.println(g.shortest("A"));
        int[] parent = new int[10];
        Arrays.setAll(parent, i -> i);
        int[][] unions = {{1, 2}, {3, 4}, {2, 3}, {7, 8}};
        for (int[] u : unions) {
            parent[find(parent, u[0])] = find(parent, u[1]);
        }
        System.out.println((find(parent, 1) == find(parent, 4)) + " " + (find(parent, 1) == find(parent, 7)));
        int inf = 1000;
        int[][] d = {{0, 3, inf, 7}, {8, 0, 2, inf}, {5, inf, 0, 1}, {2, inf, inf, 0}};
        for (int k = 0; k < 4; k++) {
            for (int i = 0; i < 4; i++) {
                for (int j = 0; j < 4; j++) {
                    d[i][j] = Math.min(d[i][j], d[i][k] + d[k][j]);
                }
            }
        }
        System.out.println(Arrays.deepToString(d));
    }

    static int find(int[] parent, int x) {
        return parent[x] == x ? x : (parent[x] = find(parent, parent[x]));
    }
}
