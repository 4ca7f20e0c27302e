/** A linked list and a tree: allocation, fields, virtual calls and calls of interfaces. */
public class Objects {
    static final int ROUNDS = 24, LENGTH = 10000, KEYS = 8000;

    interface Function {
        int of(int x);
    }

    static class Doubled implements Function {
        public int of(int x) {
            return x * 2;
        }
    }

    static class Shifted implements Function {
        private int by;

        public int of(int x) {
            by++;
            return x + by;
        }
    }

    static class Node {
        private int value;
        private Node next;

        Node(int value, Node next) {
            this.value = value;
            this.next = next;
        }

        int value() {
            return value;
        }

        Node next() {
            return next;
        }

        void apply(Function function) {
            value = function.of(value);
        }
    }

    static class Negated extends Node {
        Negated(int value, Node next) {
            super(value, next);
        }

        int value() {
            return -super.value();
        }
    }

    static class Tree {
        private final int key;
        private int count;
        private Tree left, right;

        Tree(int key) {
            this.key = key;
        }

        void add(int number) {
            if (number == key) {
                count++;
            } else if (number < key) {
                if (left == null) left = new Tree(number);
                else left.add(number);
            } else {
                if (right == null) right = new Tree(number);
                else right.add(number);
            }
        }

        int sum() {
            int sum = key + count;
            if (left != null) sum += left.sum();
            if (right != null) sum ^= right.sum();
            return sum;
        }
    }

    static int list(int length) {
        Node first = null;
        for (int i = 0; i < length; i++) first = i % 3 == 0 ? new Negated(i, first) : new Node(i, first);
        Function doubled = new Doubled(), shifted = new Shifted();
        for (Node node = first; node != null; node = node.next()) {
            node.apply((node.value() & 1) == 0 ? doubled : shifted);
        }
        int sum = 0;
        for (int round = 0; round < 5; round++) {
            for (Node node = first; node != null; node = node.next()) sum = sum * 3 + node.value();
        }
        return sum;
    }

    static int tree(int keys) {
        Tree tree = new Tree(4096);
        int number = 1;
        for (int i = 0; i < keys; i++) {
            number = number * 1103515245 + 12345;
            tree.add(number >>> 16 & 8191);
        }
        return tree.sum();
    }

    public static void main(String[] words) {
        int sum = 0;
        for (int round = 0; round < ROUNDS; round++) sum = sum * 31 + list(LENGTH) + tree(KEYS);
        System.out.println(sum);
    }
}
