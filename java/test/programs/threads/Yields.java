/** Threads that yield until another one has written. */
public class Yields {
    static volatile int stage;

    static void await(int n) {
        while (stage < n) {
            Thread.yield();
        }
    }

    public static void main(String[] args) throws InterruptedException {
        StringBuilder out = new StringBuilder();
        Thread[] threads = new Thread[3];
        for (int i = 0; i < threads.length; i++) {
            int id = i;
            threads[i] = new Thread(() -> {
                for (int round = 0; round < 3; round++) {
                    await(3 * round + id);
                    out.append("thread ").append(id).append(" round ").append(round).append('\n');
                    stage++;
                }
            });
        }
        for (int i = threads.length - 1; i >= 0; i--) {
            threads[i].start();
        }
        for (Thread t : threads) {
            t.join();
        }
        System.out.print(out);
    }
}
