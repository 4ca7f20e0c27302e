/**
 * LostUpdate, mended: inc is synchronized. A thread owns the monitor of the class while it reads and writes the count,
 * so the other thread can do neither.
 */
public class LostUpdateMended extends Thread {
    static int count;

    static synchronized void inc() {
        count++;
    }

    public void run() {
        inc();
    }

    public static void main(String[] words) throws InterruptedException {
        Thread one = new LostUpdateMended();
        Thread two = new LostUpdateMended();
        one.start();
        two.start();
        one.join();
        two.join();
        System.out.println(count);
    }
}
