import java.util.*;

/** A cache of the least recently used, by a map and a doubly linked list; a trie; a min stack. */
public class LruCache {
    private static class Node {
        final int key;
        int value;
        Node before, after;

        Node(int key, int value) {
            this.key = key;
            this.value = value;
        }
    }

    private final int room;
    private final Map<Integer, Node> map = new HashMap<>();
    private final Node head = new Node(0, 0), tail = new Node(0, 0);

    LruCache(int room) {
        this.room = room;
        head.after = tail;
        tail.before = head;
    }

    private void unlink(Node n) {
        n.before.after = n.after;
        n.after.before = n.before;
    }

    private void front(Node n) {
        n.after = head.after;
        n.before = head;
        head.after.before = n;
        head.after = n;
    }

    int get(int key) {
        Node n = map.get(key);
        if (n == null) {
            return -1;
        }
        unlink(n);
        front(n);
        return n.value;
    }

    void put(int key, int value) {
        Node n = map.get(key);
        if (n != null) {
            n.value = value;
            unlink(n);
            front(n);
            return;
        }
        if (map.size() == room) {
            map.remove(tail.before.key);
            unlink(tail.before);
        }
        n = new Node(key, value);
        map.put(key, n);
        front(n);
    }

    static class Trie {
        final Trie[] next = new Trie[26];
        boolean word;

        void add(String s) {
            Trie t = this;
            for (char c : s.toCharArray()) {
                if (t.next[c - 'a'] == null) {
                    t.next[c - 'a'] = new Trie();
                }
                t = t.next[c - 'a'];
            }
            t.word = true;
        }

        List<String> with(String prefix) {
            Trie t = this;
            for (int i = 0; i < prefix.length() && t != null; i++) {
                t = t.next[prefix.charAt(i) - 'a'];
            }
            List<String> out = new ArrayList<>();
            if (t != null) {
                t.collect(prefix, out);
            }
            return out;
        }

        private void collect(String s, List<String> out) {
            if (word) {
                out.add(s);
            }
            for (char c = 'a'; c <= 'z'; c++) {
                if (next[c - 'a'] != null) {
                    next[c - 'a'].collect(s + c, out);
                }
            }
        }
    }

    static class MinStack extends Stack<Integer> {
        private final Stack<Integer> least = new Stack<>();

        @Override
        public Integer push(Integer x) {
            least.push(least.isEmpty() ? x : Math.min(x, least.peek()));
            return super.push(x);
        }

        @Override
        public Integer pop() {
            least.pop();
            return super.pop();
        }

        int min() {
            return least.peek();
        }
    }

    public static void main(String[] args) {
        LruCache c = new LruCache(2);
        c.put(1, 1);
        c.put(2, 2);
        System.out.print(c.get(1) + " ");
        c.put(3, 3);
        System.out.print(c.get(2) + " ");
        c.put(4, 4);
        System.out.println(c.get(1) + " " + c.get(3) + " " + c.get(4));
        Trie t = new Trie();
        for (String s : "car card care cat dog".split(" ")) {
            t.add(s);
        }
        System.out.println(t.with("car") + " " + t.with("x") + " " + t.with("do"));
        MinStack m = new MinStack();
        m.push(5);
        m.push(2);
        m.push(7);
        System.out.print(m.min() + " ");
        m.pop();
        m.pop();
        System.out.println(m.min() + " " + m);
    }
}
