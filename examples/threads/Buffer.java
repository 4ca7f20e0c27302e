/**
 * A buffer of one place, by which a thread hands 1, 2 and 3 to main. Neither has a lock: each loops until the other is
 * done.
 *
 * What goes wrong: a thread that loops is enabled, and does nothing. Under a schedule that leaves the turns to it the
 * program never ends. Mailbox.java is the mended program. With two threads that fill, the loop isn't even right: both
 * may find the buffer empty.
 */
public class Buffer extends Thread {
    static volatile boolean full;
    static int item;

    public void run() {
        for (int i = 1; i <= 3; i++) {
            while (full) {
            }
            item = i;
            full = true;
        }
    }

    public static void main(String[] words) throws InterruptedException {
        Thread filler = new Buffer();
        filler.start();
        for (int left = 3; left > 0; left--) {
            while (!full) {
            }
            System.out.println(item);
            full = false;
        }
        filler.join();
    }
}
