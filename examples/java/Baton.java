// Needs: threads

/** Two threads that take turns by a volatile field, each waiting in a loop. */
public class Baton implements Runnable {
    static volatile int turn;
    private final int number;
    private final String text;

    Baton(int number, String text) {
        this.number = number;
        this.text = text;
    }

    public void run() {
        for (int round = 0; round < 5; round++) {
            while (turn != number) {
            }
            System.out.print(text);
            System.out.println(round);
            turn = 1 - turn;
        }
    }

    public static void main(String[] words) throws InterruptedException {
        Thread one = new Thread(new Baton(0, "tick "));
        Thread other = new Thread(new Baton(1, "tock "));
        one.start();
        other.start();
        one.join();
        other.join();
        System.out.println(turn);
    }
}
