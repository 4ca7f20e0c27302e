import java.lang.ref.*;
import java.util.*;

/** References, identity, equality, aliasing, arrays of objects, identity maps. */
public class Memory {
    static void change(int[] a, StringBuilder b, String s, Integer i) {
        a[0] = 99;
        a = new int[] {1};
        b.append("!");
        b = new StringBuilder("other");
        s += "changed";
        i++;
    }

    static class Node {
        Node other;
        final String name;

        Node(String name) {
            this.name = name;
        }
    }

    public static void main(String[] args) {
        int[] a = {1, 2};
        StringBuilder b = new StringBuilder("text");
        String s = "same";
        Integer i = 1;
        change(a, b, s, i);
        System.out.println(a[0] + " " + b + " " + s + " " + i);
        Node x = new Node("x"), y = new Node("y");
        x.other = y;
        y.other = x;
        System.out.println(x.other.other.name + " " + (x.other.other == x));
        String[] names = new String[3];
        names[1] = "one";
        System.out.println(Arrays.toString(names) + " " + new Node[2][2][0].length);
        Object[] mixed = {1, "two", 'c', 4L, null, new int[] {5}, true};
        StringBuilder kinds = new StringBuilder();
        for (Object o : mixed) {
            kinds.append(o == null ? "null" : o.getClass().getSimpleName()).append(' ');
        }
        System.out.println(kinds.toString().trim());
        Map<Node, Integer> identity = new IdentityHashMap<>();
        identity.put(x, 1);
        identity.put(new Node("x"), 2);
        System.out.println(identity.size() + " " + identity.get(x) + " " + (System.identityHashCode(x) == System.identityHashCode(x)) + " " + (System.identityHashCode(null)));
        WeakReference<Node> weak = new WeakReference<>(x);
        System.out.println((weak.get() == x) + " " + new SoftReference<>("s").get());
        long l1 = 127, l2 = 127;
        Long b1 = l1, b2 = l2, c1 = 1000L, c2 = 1000L;
        System.out.println((b1 == b2) + " " + c1.equals(c2) + " " + (l1 == b1) + " " + Objects.equals(c1, 1000));
        int[][] m = new int[2][];
        m[0] = m[1] = new int[] {7};
        m[1][0]++;
        System.out.println(m[0][0] + " " + (m[0] == m[1]) + " " + Arrays.equals(m[0], m[1].clone()));
        char[] chars = {'o', 'k'};
        String made = new String(chars);
        chars[0] = 'X';
        System.out.println(made + String.valueOf(chars) + " " + (made + "").equals("ok"));
    }
}
