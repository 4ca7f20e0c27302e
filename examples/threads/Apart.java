/**
 * Two threads count one each, and may lose one of the two counts. One of them works for itself first.
 *
 * What goes wrong: as in LostUpdate, count++ reads the count and writes it. If each thread takes as many turns as the other, or
 * nearly, they count at different times, so a schedule that keeps them in step never shows it.
 */
public class Apart extends Thread {
    static int count;
    int rounds;

    static void inc() {
        count++;
    }

    public void run() {
        for (int i = 0; i < rounds; i++) {
            // It works for itself.
        }
        inc();
    }

    public static void main(String[] words) throws InterruptedException {
        Thread one = new Apart();
        Apart two = new Apart();
        two.rounds = 10;
        one.start();
        two.start();
        one.join();
        two.join();
        System.out.println(count);
    }
}
