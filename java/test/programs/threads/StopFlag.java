/** Threads that loop until a flag or an interrupt stops them, while the first one sleeps. */
public class StopFlag {
    static volatile boolean running = true;
    public static void main(String[] args) throws InterruptedException {
        Thread worker = new Thread(() -> {
            int n = 0;
            while (running) {
                n++;
            }
            System.out.println("stopped");
        });
        worker.start();
        Thread.sleep(100);
        running = false;
        worker.join();
        Thread other = new Thread(() -> {
            int n = 0;
            while (!Thread.currentThread().isInterrupted()) {
                n++;
            }
            System.out.println("interrupted");
        });
        other.start();
        Thread.sleep(50);
        other.interrupt();
        other.join();
        System.out.println("end");
    }
}
