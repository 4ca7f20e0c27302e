/** A priority queue: a heap in an array that grows, ordered by an object behind an interface. */
public class Priorities {
    interface Order {
        boolean before(Object one, Object other);
    }

    static class Task {
        final String name;
        final int urgency;

        Task(String name, int urgency) {
            this.name = name;
            this.urgency = urgency;
        }
    }

    static class ByUrgency implements Order {
        private final int sign;

        ByUrgency(int sign) {
            this.sign = sign;
        }

        public boolean before(Object one, Object other) {
            return sign * ((Task) one).urgency < sign * ((Task) other).urgency;
        }
    }

    static class Queue {
        private Object[] heap = new Object[2];
        private int size;
        private final Order order;

        Queue(Order order) {
            this.order = order;
        }

        boolean isEmpty() {
            return size == 0;
        }

        void put(Object item) {
            if (size == heap.length) grow();
            int place = size++;
            while (place > 0 && order.before(item, heap[(place - 1) / 2])) {
                heap[place] = heap[(place - 1) / 2];
                place = (place - 1) / 2;
            }
            heap[place] = item;
        }

        Object take() {
            Object first = heap[0];
            Object last = heap[--size];
            heap[size] = null;
            if (size > 0) sink(last);
            return first;
        }

        private void sink(Object item) {
            int place = 0;
            int child;
            while ((child = 2 * place + 1) < size) {
                if (child + 1 < size && order.before(heap[child + 1], heap[child])) child++;
                if (!order.before(heap[child], item)) break;
                heap[place] = heap[child];
                place = child;
            }
            heap[place] = item;
        }

        private void grow() {
            Object[] wider = new Object[2 * heap.length];
            for (int i = 0; i < size; i++) wider[i] = heap[i];
            heap = wider;
        }
    }

    static void fill(Queue queue) {
        queue.put(new Task("water the plants", 3));
        queue.put(new Task("put out the fire", 99));
        queue.put(new Task("sleep", 12));
        queue.put(new Task("learn the lute", -4));
        queue.put(new Task("eat", 20));
        queue.put(new Task("pay the rent", 31));
        queue.put(new Task("count sheep", 11));
    }

    static void empty(Queue queue) {
        while (!queue.isEmpty()) {
            Task task = (Task) queue.take();
            System.out.print(task.urgency);
            System.out.print(" ");
            System.out.println(task.name);
        }
    }

    static void churn(Queue queue) {
        int seed = 12345;
        int sum = 0;
        for (int round = 1; round <= 300; round++) {
            seed = seed * 1103515245 + 12345;
            queue.put(new Task("", seed >>> 16 & 1023));
            if (round % 3 == 0) sum = 31 * sum + ((Task) queue.take()).urgency;
        }
        System.out.println(sum);
    }

    public static void main(String[] words) {
        Queue queue = new Queue(new ByUrgency(-1));
        fill(queue);
        empty(queue);
        Queue other = new Queue(new ByUrgency(1));
        fill(other);
        System.out.println(((Task) other.take()).name);
        churn(queue);
        churn(other);
    }
}
