/** Two threads add to a count for 300 rounds. */
public class Rounds {
    private static int count;

    static void add() {
        count = count + 1;
    }

    static void rounds() {
        for (int i = 0; i < 300; i++) {
            add();
        }
    }

    public static void main(String[] args) throws InterruptedException {
        Thread one = new Thread(Rounds::rounds);
        Thread two = new Thread(Rounds::rounds);
        one.start();
        two.start();
        one.join();
        two.join();
        System.out.println(count > 300);
    }
}
