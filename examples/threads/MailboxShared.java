/**
 * The mailbox of Mailbox.java, where two threads put 1, 2 and 3 each, and two take three numbers each. It prints the
 * sum of what was taken, 12.
 *
 * What goes wrong: all of them wait in one queue, and notify wakes one thread. That may be one that puts while the
 * mailbox is full, or one that takes while it is empty. It waits again, nobody else is woken, and all wait for ever.
 */
public class MailboxShared extends Thread {
    static boolean full;
    static int item;

    final boolean puts;
    int sum;

    MailboxShared(boolean puts) {
        this.puts = puts;
    }

    static void fill(int i) {
        item = i;
        full = true;
    }

    static int empty() {
        int i = item;
        full = false;
        return i;
    }

    static synchronized void put(int i) throws InterruptedException {
        while (full) MailboxShared.class.wait();
        fill(i);
        MailboxShared.class.notify();
    }

    static synchronized int take() throws InterruptedException {
        while (!full) MailboxShared.class.wait();
        int i = empty();
        MailboxShared.class.notify();
        return i;
    }

    public void run() {
        try {
            for (int i = 1; i <= 3; i++) {
                if (puts) put(i);
                else sum += take();
            }
        } catch (InterruptedException e) {
            throw new IllegalStateException();
        }
    }

    public static void main(String[] words) throws InterruptedException {
        MailboxShared[] all = new MailboxShared[4];
        for (int k = 0; k < 4; k++) all[k] = new MailboxShared(k < 2);
        for (int k = 0; k < 4; k++) all[k].start();
        for (int k = 0; k < 4; k++) all[k].join();
        System.out.println(all[2].sum + all[3].sum);
    }
}
