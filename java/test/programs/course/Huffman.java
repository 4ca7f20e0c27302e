import java.util.*;

/** Huffman codes by a priority queue. */
public class Huffman {
    abstract static class Tree implements Comparable<Tree> {
        final int weight;
        final int order;
        private static int made;

        Tree(int weight) {
            this.weight = weight;
            this.order = made++;
        }

        @Override
        public int compareTo(Tree o) {
            return weight != o.weight ? Integer.compare(weight, o.weight) : Integer.compare(order, o.order);
        }

        abstract void codes(String prefix, Map<Character, String> out);
    }

    static class Leaf extends Tree {
        final char c;

        Leaf(char c, int weight) {
            super(weight);
            this.c = c;
        }

        void codes(String prefix, Map<Character, String> out) {
            out.put(c, prefix.isEmpty() ? "0" : prefix);
        }
    }

    static class Branch extends Tree {
        final Tree left, right;

        Branch(Tree left, Tree right) {
            super(left.weight + right.weight);
            this.left = left;
            this.right = right;
        }

        void codes(String prefix, Map<Character, String> out) {
            left.codes(prefix + "0", out);
            right.codes(prefix + "1", out);
        }
    }

    public static void main(String[] args) {
        String text = "abracadabra alakazam";
        Map<Character, Integer> counts = new TreeMap<>();
        for (char c : text.toCharArray()) {
            counts.merge(c, 1, Integer::sum);
        }
        PriorityQueue<Tree> queue = new PriorityQueue<>();
        counts.forEach((c, n) -> queue.add(new Leaf(c, n)));
        while (queue.size() > 1) {
            queue.add(new Branch(queue.poll(), queue.poll()));
        }
        Tree root = queue.poll();
        Map<Character, String> codes = new TreeMap<>();
        root.codes("", codes);
        StringBuilder bits = new StringBuilder();
        for (char c : text.toCharArray()) {
            bits.append(codes.get(c));
        }
        System.out.println(counts + " " + codes);
        System.out.println(bits.length() + " " + bits);
        StringBuilder back = new StringBuilder();
        Tree at = root;
        for (char b : bits.toString().toCharArray()) {
            at = b == '0' ? ((Branch) at).left : ((Branch) at).right;
            if (at instanceof Leaf) {
                back.append(((Leaf) at).c);
                at = root;
            }
        }
        System.out.println(back + " " + back.toString().equals(text));
    }
}
