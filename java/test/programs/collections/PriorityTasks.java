import java.util.*;

/** Priority queues, deques as stacks and queues, a sliding window, a running median. */
public class PriorityTasks {
    static class Task implements Comparable<Task> {
        final String name;
        final int priority;

        Task(String name, int priority) {
            this.name = name;
            this.priority = priority;
        }

        @Override
        public int compareTo(Task o) {
            return priority != o.priority ? Integer.compare(o.priority, priority) : name.compareTo(o.name);
        }

        @Override
        public String toString() {
            return name + ":" + priority;
        }
    }

    static int[] windowMax(int[] a, int k) {
        Deque<Integer> d = new ArrayDeque<>();
        int[] out = new int[a.length - k + 1];
        for (int i = 0; i < a.length; i++) {
            while (!d.isEmpty() && a[d.peekLast()] <= a[i]) {
                d.pollLast();
            }
            d.addLast(i);
            if (d.peekFirst() <= i - k) {
                d.pollFirst();
            }
            if (i >= k - 1) {
                out[i - k + 1] = a[d.peekFirst()];
            }
        }
        return out;
    }

    public static void main(String[] args) {
        PriorityQueue<Task> q = new PriorityQueue<>();
        Collections.addAll(q, new Task("sweep", 1), new Task("fix", 9), new Task("answer", 5), new Task("ask", 5));
        System.out.print(q.size() + " " + q.peek() + ": ");
        while (!q.isEmpty()) {
            System.out.print(q.poll() + " ");
        }
        System.out.println();
        System.out.println(Arrays.toString(windowMax(new int[] {1, 3, -1, -3, 5, 3, 6, 7}, 3)));
        PriorityQueue<Integer> low = new PriorityQueue<>(Collections.reverseOrder()), high = new PriorityQueue<>();
        StringBuilder medians = new StringBuilder();
        for (int x : new int[] {5, 15, 1, 3, 8, 7}) {
            low.add(x);
            high.add(low.poll());
            if (high.size() > low.size()) {
                low.add(high.poll());
            }
            medians.append(low.peek()).append(' ');
        }
        System.out.println(medians);
        Deque<String> d = new LinkedList<>();
        d.push("a");
        d.addLast("b");
        d.offerFirst("c");
        System.out.println(d + " " + d.getFirst() + d.getLast() + d.removeFirstOccurrence("a") + d.descendingIterator().next());
        try {
            new ArrayDeque<String>().pop();
        } catch (NoSuchElementException e) {
            System.out.println("empty");
        }
        try {
            new ArrayDeque<String>().add(null);
        } catch (NullPointerException e) {
            System.out.println("null");
        }
        Queue<Integer> ring = new LinkedList<>();
        for (int i = 1; i <= 7; i++) {
            ring.add(i);
        }
        StringBuilder order = new StringBuilder();
        while (ring.size() > 1) {
            ring.add(ring.remove());
            ring.add(ring.remove());
            order.append(ring.remove());
        }
        System.out.println(order + " last " + ring.peek());
    }
}
