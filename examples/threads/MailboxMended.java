/**
 * MailboxShared, mended: notifyAll wakes all threads that wait. Each tests again, and those that find no work wait
 * again.
 */
public class MailboxMended extends Thread {
    static boolean full;
    static int item;

    final boolean puts;
    int sum;

    MailboxMended(boolean puts) {
        this.puts = puts;
    }

    static void fill(int i) {
        item = i;
        full = true;
    }

    static int empty() {
        int i = item;
        full = false;
        return i;
    }

    static synchronized void put(int i) throws InterruptedException {
        while (full) MailboxMended.class.wait();
        fill(i);
        MailboxMended.class.notifyAll();
    }

    static synchronized int take() throws InterruptedException {
        while (!full) MailboxMended.class.wait();
        int i = empty();
        MailboxMended.class.notifyAll();
        return i;
    }

    public void run() {
        try {
            for (int i = 1; i <= 3; i++) {
                if (puts) put(i);
                else sum += take();
            }
        } catch (InterruptedException e) {
            throw new IllegalStateException();
        }
    }

    public static void main(String[] words) throws InterruptedException {
        MailboxMended[] all = new MailboxMended[4];
        for (int k = 0; k < 4; k++) all[k] = new MailboxMended(k < 2);
        for (int k = 0; k < 4; k++) all[k].start();
        for (int k = 0; k < 4; k++) all[k].join();
        System.out.println(all[2].sum + all[3].sum);
    }
}
