// Needs: exceptions, monitors, threads

/** A buffer of three places between two producers and two consumers, which wait while it is full or empty. */
public class BoundedBuffer {
    private final int[] items = new int[3];
    private int first;
    private int count;

    /** Adds an item behind the others. The monitor is held, and there is a place. */
    void add(int item) {
        items[(first + count) % items.length] = item;
        count++;
    }

    /** Removes the first item and returns it. The monitor is held, and there is an item. */
    int remove() {
        int item = items[first];
        first = (first + 1) % items.length;
        count--;
        return item;
    }

    synchronized void put(int item) throws InterruptedException {
        while (count == items.length) wait();
        add(item);
        notifyAll();
    }

    synchronized int take() throws InterruptedException {
        while (count == 0) wait();
        int item = remove();
        notifyAll();
        return item;
    }

    synchronized int size() {
        return count;
    }

    static class Producer extends Thread {
        private final BoundedBuffer buffer;
        private final int start;

        Producer(BoundedBuffer buffer, int start) {
            this.buffer = buffer;
            this.start = start;
        }

        public void run() {
            try {
                for (int i = 0; i < 10; i++) buffer.put(start + i);
            } catch (InterruptedException e) {
                System.out.println("not reached");
            }
        }
    }

    static class Consumer extends Thread {
        private final BoundedBuffer buffer;
        int taken;
        int sum;

        Consumer(BoundedBuffer buffer) {
            this.buffer = buffer;
        }

        public void run() {
            try {
                for (int i = 0; i < 10; i++) {
                    sum += buffer.take();
                    taken++;
                }
            } catch (InterruptedException e) {
                System.out.println("not reached");
            }
        }
    }

    public static void main(String[] words) throws InterruptedException {
        BoundedBuffer buffer = new BoundedBuffer();
        Producer one = new Producer(buffer, 1), other = new Producer(buffer, 101);
        Consumer first = new Consumer(buffer), second = new Consumer(buffer);
        first.start();
        second.start();
        one.start();
        other.start();
        one.join();
        other.join();
        first.join();
        second.join();
        System.out.println(first.taken + second.taken);
        System.out.println(first.sum + second.sum);
        System.out.println(buffer.size());
    }
}
