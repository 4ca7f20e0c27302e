/** Two threads that take one lock in turn, and count under it. */
public class Locks extends Thread {
    static final int ROUNDS = 200000;
    static final Object LOCK = new Object();
    static int count;

    public void run() {
        for (int round = 0; round < ROUNDS; round++) {
            synchronized (LOCK) {
                count = count + 1;
            }
        }
    }

    public static void main(String[] words) throws InterruptedException {
        count = 0;
        Locks first = new Locks(), second = new Locks();
        first.start();
        second.start();
        first.join();
        second.join();
        System.out.println(count);
    }
}
