// Needs: exceptions, monitors, threads

/** Threads that count together: each addition in a synchronized method, or in a synchronized block. */
public class Counter implements Runnable {
    private int count;
    private final Object monitor = new Object();
    private int other;

    synchronized void add(int n) {
        int seen = count;
        count = seen + n;
    }

    void addToOther() {
        synchronized (monitor) {
            int seen = other;
            other = seen + 1;
        }
    }

    public void run() {
        for (int i = 1; i <= 50; i++) {
            add(i);
            addToOther();
        }
    }

    public static void main(String[] words) throws InterruptedException {
        Counter counter = new Counter();
        Thread[] threads = new Thread[4];
        for (int i = 0; i < threads.length; i++) threads[i] = new Thread(counter);
        for (int i = 0; i < threads.length; i++) threads[i].start();
        counter.run();
        for (int i = 0; i < threads.length; i++) threads[i].join();
        System.out.println(counter.count);
        System.out.println(counter.other);
    }
}
