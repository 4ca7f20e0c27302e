/**
 * Two threads count one each, and may lose one of the two counts.
 *
 * What goes wrong: count++ is four instructions. It reads the count, pushes 1, adds and writes. If the other thread
 * writes between the reading and the writing, its count is overwritten.
 */
public class LostUpdate extends Thread {
    static int count;

    static void inc() {
        count++;
    }

    public void run() {
        inc();
    }

    public static void main(String[] words) throws InterruptedException {
        Thread one = new LostUpdate();
        Thread two = new LostUpdate();
        one.start();
        two.start();
        one.join();
        two.join();
        System.out.println(count);
    }
}
