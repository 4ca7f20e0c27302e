/** Shutdown hooks, exit, the default handler, daemons that never end. */
public class Hooks {
    public static void main(String[] args) throws InterruptedException {
        Runtime.getRuntime().addShutdownHook(new Thread(() -> System.out.println("hook runs")));
        Thread.setDefaultUncaughtExceptionHandler((t, e) -> System.out.println("default: " + t.getName() + " " + e.getMessage()));
        Thread bad = new Thread(() -> {
            throw new RuntimeException("bad");
        }, "bad");
        bad.start();
        bad.join();
        Thread daemon = new Thread(() -> {
            try {
                synchronized (Hooks.class) {
                    Hooks.class.wait();
                }
            } catch (InterruptedException e) {
                System.out.println("never");
            }
        });
        daemon.setDaemon(true);
        daemon.start();
        Thread last = new Thread(() -> {
            try {
                Thread.sleep(100);
            } catch (InterruptedException e) {
                return;
            }
            System.out.println("last user thread ends");
            System.exit(0);
            System.out.println("not reached");
        });
        last.start();
        System.out.println("main ends");
    }
}
