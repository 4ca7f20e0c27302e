import java.util.*;
import java.util.function.Consumer;

/** A binary search tree with traversals, deletion and an iterator. */
public class SearchTree<K extends Comparable<K>> implements Iterable<K> {
    private class Node {
        K key;
        Node left, right;

        Node(K key) {
            this.key = key;
        }
    }

    private Node root;

    boolean add(K key) {
        int before = size(root);
        root = add(root, key);
        return size(root) > before;
    }

    private Node add(Node n, K key) {
        if (n == null) {
            return new Node(key);
        }
        int c = key.compareTo(n.key);
        if (c < 0) {
            n.left = add(n.left, key);
        } else if (c > 0) {
            n.right = add(n.right, key);
        }
        return n;
    }

    void remove(K key) {
        root = remove(root, key);
    }

    private Node remove(Node n, K key) {
        if (n == null) {
            return null;
        }
        int c = key.compareTo(n.key);
        if (c < 0) {
            n.left = remove(n.left, key);
        } else if (c > 0) {
            n.right = remove(n.right, key);
        } else if (n.left == null) {
            return n.right;
        } else if (n.right == null) {
            return n.left;
        } else {
            Node least = n.right;
            while (least.left != null) {
                least = least.left;
            }
            n.key = least.key;
            n.right = remove(n.right, least.key);
        }
        return n;
    }

    private int size(Node n) {
        return n == null ? 0 : 1 + size(n.left) + size(n.right);
    }

    private int height(Node n) {
        return n == null ? 0 : 1 + Math.max(height(n.left), height(n.right));
    }

    private void preOrder(Node n, Consumer<? super K> visit) {
        if (n != null) {
            visit.accept(n.key);
            preOrder(n.left, visit);
            preOrder(n.right, visit);
        }
    }

    @Override
    public Iterator<K> iterator() {
        Deque<Node> path = new ArrayDeque<>();
        for (Node n = root; n != null; n = n.left) {
            path.push(n);
        }
        return new Iterator<K>() {
            @Override
            public boolean hasNext() {
                return !path.isEmpty();
            }

            @Override
            public K next() {
                Node n = path.pop();
                for (Node m = n.right; m != null; m = m.left) {
                    path.push(m);
                }
                return n.key;
            }
        };
    }

    public static void main(String[] args) {
        SearchTree<Integer> t = new SearchTree<>();
        for (int i : new int[] {50, 30, 70, 20, 40, 60, 80, 30}) {
            System.out.print(t.add(i) + " ");
        }
        System.out.println(t.size(t.root) + " " + t.height(t.root));
        for (int k : t) {
            System.out.print(k + " ");
        }
        System.out.println();
        List<Integer> pre = new ArrayList<>();
        t.remove(50);
        t.remove(20);
        t.preOrder(t.root, pre::add);
        System.out.println(pre);
        SearchTree<String> words = new SearchTree<>();
        for (String s : "to be or not to be that is the question".split(" ")) {
            words.add(s);
        }
        System.out.println(String.join(",", words));
    }
}
