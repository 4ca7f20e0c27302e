/** Linked lists: built, turned round, merged, sorted, and a ring from which every third falls out. */
public class Lists {
    static class Node {
        int value;
        Node next;

        Node(int value, Node next) {
            this.value = value;
            this.next = next;
        }
    }

    static Node turned(Node list) {
        Node before = null;
        for (Node node = list, next; node != null; node = next) {
            next = node.next;
            node.next = before;
            before = node;
        }
        return before;
    }

    static void print(Node list) {
        for (Node node = list; node != null; node = node.next) {
            System.out.print(node.value);
            System.out.print(node.next == null ? "" : " ");
        }
        System.out.println();
    }

    static Node merged(Node one, Node other) {
        Node head = new Node(0, null);
        Node last = head;
        while (one != null && other != null) {
            if (one.value <= other.value) {
                last.next = one;
                one = one.next;
            } else {
                last.next = other;
                other = other.next;
            }
            last = last.next;
        }
        last.next = one == null ? other : one;
        return head.next;
    }

    static Node sorted(Node list) {
        if (list == null || list.next == null) return list;
        Node slow = list;
        for (Node fast = list.next; fast != null && fast.next != null; fast = fast.next.next) slow = slow.next;
        Node second = slow.next;
        slow.next = null;
        return merged(sorted(list), sorted(second));
    }

    /** The place of the last who stays in a ring from which every third goes. */
    static int survivor(int people) {
        Node last = new Node(people, null);
        last.next = last;
        for (int i = people - 1; i > 0; i--) last.next = new Node(i, last.next);
        Node before = last;
        while (before.next != before) {
            before = before.next.next;
            before.next = before.next.next;
        }
        return before.value;
    }

    static int folded(Node list) {
        return list == null ? 7 : 31 * folded(list.next) + list.value;
    }

    public static void main(String[] words) {
        Node list = null;
        for (int i = 0; i < 12; i++) list = new Node(i * i * 7 % 25, list);
        print(list);
        list = turned(list);
        print(list);
        list = sorted(list);
        print(list);
        System.out.println(survivor(41));
        System.out.println(folded(list));
    }
}
