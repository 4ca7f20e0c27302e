/** A thread sleeps while it owns a monitor that another wants. */
public class SleepInMonitor {
    static final Object LOCK = new Object();
    static final StringBuffer OUT = new StringBuffer();

    static void pause(long ms) {
        try {
            Thread.sleep(ms);
        } catch (InterruptedException e) {
            Thread.currentThread().interrupt();
        }
    }

    public static void main(String[] args) throws InterruptedException {
        Thread a = new Thread(() -> {
            synchronized (LOCK) {
                OUT.append("a in;");
                pause(200);
                OUT.append("a out;");
            }
        });
        Thread b = new Thread(() -> {
            pause(50);
            synchronized (LOCK) {
                OUT.append("b in;");
            }
        });
        a.start();
        b.start();
        a.join();
        b.join();
        System.out.println(OUT);
    }
}
