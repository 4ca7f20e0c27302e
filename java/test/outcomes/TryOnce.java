import java.util.concurrent.CyclicBarrier;
import java.util.concurrent.locks.ReentrantLock;

/** Two threads try a lock once, and whoever has it keeps it: one or both get it. */
public class TryOnce {
    public static void main(String[] args) throws Exception {
        ReentrantLock lock = new ReentrantLock();
        int[] got = new int[2];
        Thread[] t = new Thread[2];
        for (int i = 0; i < 2; i++) {
            int id = i;
            t[i] = new Thread(() -> {
                if (lock.tryLock()) {
                    got[id]++;
                    lock.unlock();
                }
            });
            t[i].start();
        }
        t[0].join();
        t[1].join();
        System.out.println(got[0] + got[1]);
    }
}
