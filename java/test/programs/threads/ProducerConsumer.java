import java.util.*;

/** A buffer by wait and notify, several producers and one consumer, a poison pill. */
public class ProducerConsumer {
    private final Queue<Integer> queue = new LinkedList<>();
    private final int room;

    ProducerConsumer(int room) {
        this.room = room;
    }

    synchronized void put(int x) throws InterruptedException {
        while (queue.size() == room) {
            wait();
        }
        queue.add(x);
        notifyAll();
    }

    synchronized int take() throws InterruptedException {
        while (queue.isEmpty()) {
            wait();
        }
        int x = queue.remove();
        notifyAll();
        return x;
    }

    public static void main(String[] args) throws Exception {
        ProducerConsumer b = new ProducerConsumer(2);
        List<Thread> producers = new ArrayList<>();
        for (int p = 1; p <= 3; p++) {
            int base = p * 10;
            Thread t = new Thread(() -> {
                try {
                    for (int i = 0; i < 4; i++) {
                        b.put(base + i);
                    }
                } catch (InterruptedException e) {
                    throw new IllegalStateException(e);
                }
            }, "producer-" + p);
            producers.add(t);
            t.start();
        }
        TreeSet<Integer> got = new TreeSet<>();
        Thread consumer = new Thread(() -> {
            try {
                for (int x = b.take(); x >= 0; x = b.take()) {
                    got.add(x);
                }
            } catch (InterruptedException e) {
                throw new IllegalStateException(e);
            }
        });
        consumer.start();
        for (Thread t : producers) {
            t.join();
        }
        b.put(-1);
        consumer.join();
        System.out.println(got);
    }
}
