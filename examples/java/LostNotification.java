// Needs: monitors, threads

/**
 * A gate that a visitor waits for and another thread opens. The visitor looks at it and waits for it in two steps, and
 * without a loop. If it is opened between the two, nobody is notified, and the visitor waits for ever.
 */
public class LostNotification {
    private boolean isOpen;

    synchronized boolean isOpen() {
        return isOpen;
    }

    synchronized void park() throws InterruptedException {
        wait();
    }

    synchronized void open() {
        isOpen = true;
        notify();
    }

    void await() throws InterruptedException {
        if (!isOpen()) park();
    }

    static class Opener extends Thread {
        private final LostNotification gate;

        Opener(LostNotification gate) {
            this.gate = gate;
        }

        public void run() {
            for (int steps = 0; steps < 3; steps++) {
            }
            gate.open();
        }
    }

    static class Visitor {
        private final LostNotification gate;

        Visitor(LostNotification gate) {
            this.gate = gate;
        }

        void pass() throws InterruptedException {
            System.out.println("at the gate");
            gate.await();
            System.out.println("behind the gate");
        }
    }

    public static void main(String[] words) throws InterruptedException {
        LostNotification gate = new LostNotification();
        new Opener(gate).start();
        new Visitor(gate).pass();
    }
}
