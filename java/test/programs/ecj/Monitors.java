import java.util.LinkedList;

/** Java 5 threads: subclasses of Thread, synchronized, wait and notify. */
public class Monitors {
    static class Channel {
        private final LinkedList<Integer> items = new LinkedList<Integer>();

        synchronized void send(int x) {
            items.addLast(x);
            notify();
        }

        synchronized int receive() throws InterruptedException {
            while (items.isEmpty()) {
                wait();
            }
            return items.removeFirst();
        }
    }

    static class Squarer extends Thread {
        private final Channel in, out;

        Squarer(Channel in, Channel out) {
            super("squarer");
            this.in = in;
            this.out = out;
        }

        public void run() {
            try {
                for (int x = in.receive(); x >= 0; x = in.receive()) {
                    out.send(x * x);
                }
                out.send(-1);
            } catch (InterruptedException e) {
                System.out.println("interrupted");
            }
        }
    }

    public static void main(String[] args) throws InterruptedException {
        Channel a = new Channel(), b = new Channel();
        Thread t = new Squarer(a, b);
        t.start();
        for (int i = 0; i < 6; i++) {
            a.send(i);
        }
        a.send(-1);
        StringBuilder s = new StringBuilder(t.getName());
        for (int x = b.receive(); x >= 0; x = b.receive()) {
            s.append(' ').append(x);
        }
        t.join();
        System.out.println(s);
        System.out.println(t.isAlive());
    }
}
