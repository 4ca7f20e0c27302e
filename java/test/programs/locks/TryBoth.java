import java.util.concurrent.locks.ReentrantLock;

/** Each thread has one lock and tries the other; nobody waits for ever in Java. */
public class TryBoth {
    static final ReentrantLock left = new ReentrantLock(), right = new ReentrantLock();

    static boolean move(ReentrantLock first, ReentrantLock second) {
        first.lock();
        try {
            if (!second.tryLock()) {
                return false;
            }
            try {
                return true;
            } finally {
                second.unlock();
            }
        } finally {
            first.unlock();
        }
    }

    public static void main(String[] args) throws InterruptedException {
        Thread a = new Thread(() -> move(left, right)), b = new Thread(() -> move(right, left)), c = new Thread(() -> {
            left.lock();
            right.lock();
            right.unlock();
            left.unlock();
        });
        a.start();
        b.start();
        c.start();
        a.join();
        b.join();
        c.join();
        System.out.println("all ended");
    }
}
