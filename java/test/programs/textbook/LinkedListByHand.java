/** A singly linked list as in a first course. */
public class LinkedListByHand {
    private static class Node {
        int data;
        Node next;

        Node(int data) {
            this.data = data;
        }
    }

    private Node head;
    private int size;

    void addFirst(int x) {
        Node n = new Node(x);
        n.next = head;
        head = n;
        size++;
    }

    void addLast(int x) {
        if (head == null) {
            addFirst(x);
            return;
        }
        Node n = head;
        while (n.next != null) {
            n = n.next;
        }
        n.next = new Node(x);
        size++;
    }

    boolean remove(int x) {
        Node before = null;
        for (Node n = head; n != null; before = n, n = n.next) {
            if (n.data == x) {
                if (before == null) {
                    head = n.next;
                } else {
                    before.next = n.next;
                }
                size--;
                return true;
            }
        }
        return false;
    }

    void reverse() {
        Node done = null;
        while (head != null) {
            Node next = head.next;
            head.next = done;
            done = head;
            head = next;
        }
        head = done;
    }

    int middle() {
        Node slow = head, fast = head;
        while (fast != null && fast.next != null) {
            slow = slow.next;
            fast = fast.next.next;
        }
        return slow.data;
    }

    @Override
    public String toString() {
        StringBuilder b = new StringBuilder("[");
        for (Node n = head; n != null; n = n.next) {
            b.append(n.data);
            if (n.next != null) {
                b.append(" -> ");
            }
        }
        return b.append("]").toString();
    }

    public static void main(String[] args) {
        LinkedListByHand l = new LinkedListByHand();
        for (int i = 1; i <= 5; i++) {
            l.addLast(i * i);
        }
        l.addFirst(0);
        System.out.println(l + " size " + l.size + " middle " + l.middle());
        System.out.println(l.remove(9) + " " + l.remove(100) + " " + l);
        l.reverse();
        System.out.println(l);
    }
}
