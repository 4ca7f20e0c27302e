import java.util.concurrent.atomic.AtomicInteger;

/** One counter by each kind of synchronization. */
public class Counters {
    private int byMethod, byBlock;
    private static int byClass;
    private final Object lock = new Object();
    private final AtomicInteger byAtomic = new AtomicInteger();
    private volatile boolean stop;

    synchronized void method() {
        byMethod++;
    }

    void block() {
        synchronized (lock) {
            byBlock++;
        }
    }

    static synchronized void ofClass() {
        byClass++;
    }

    static void alsoOfClass() {
        synchronized (Counters.class) {
            byClass++;
        }
    }

    public static void main(String[] args) throws InterruptedException {
        Counters c = new Counters();
        Runnable work = () -> {
            for (int i = 0; i < 25; i++) {
                c.method();
                c.block();
                ofClass();
                alsoOfClass();
                c.byAtomic.getAndIncrement();
            }
        };
        Thread a = new Thread(work), b = new Thread(work), d = new Thread(work);
        a.start();
        b.start();
        d.start();
        a.join();
        b.join();
        d.join();
        System.out.println(c.byMethod + " " + c.byBlock + " " + byClass + " " + c.byAtomic);
        Thread spin = new Thread(() -> {
            int n = 0;
            while (!c.stop) {
                n++;
            }
            System.out.println("stopped " + (n >= 0));
        });
        spin.start();
        c.stop = true;
        spin.join();
    }
}
