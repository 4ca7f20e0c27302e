/**
 * A mailbox of one place, by which a thread hands 1, 2 and 3 to main. Each waits for the other by wait, where Buffer
 * loops. It is right for one thread that puts and one that takes, and MailboxShared.java shows what happens with more.
 *
 * What to look at: a call of put or take that waits isn't atomic, since wait gives the monitor up and the other thread
 * runs in the middle of it. fill and empty are atomic.
 */
public class Mailbox extends Thread {
    static boolean full;
    static int item;

    static void fill(int i) {
        item = i;
        full = true;
    }

    static int empty() {
        int i = item;
        full = false;
        return i;
    }

    static synchronized void put(int i) throws InterruptedException {
        while (full) Mailbox.class.wait();
        fill(i);
        Mailbox.class.notify();
    }

    static synchronized int take() throws InterruptedException {
        while (!full) Mailbox.class.wait();
        int i = empty();
        Mailbox.class.notify();
        return i;
    }

    public void run() {
        try {
            for (int i = 1; i <= 3; i++) put(i);
        } catch (InterruptedException e) {
            throw new IllegalStateException();
        }
    }

    public static void main(String[] words) throws InterruptedException {
        Thread sender = new Mailbox();
        sender.start();
        for (int left = 3; left > 0; left--) System.out.println(take());
        sender.join();
    }
}
