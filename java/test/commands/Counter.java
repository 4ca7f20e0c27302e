import java.util.function.IntSupplier;

/** Two threads add to a count; an addition may be lost. */
public class Counter {
    private static int count;

    static void add(IntSupplier amount) {
        int before = count;
        count = before + amount.getAsInt();
    }

    public static void main(String[] args) throws InterruptedException {
        Thread one = new Thread(() -> add(() -> 1));
        Thread two = new Thread(() -> add(() -> 1));
        one.start();
        two.start();
        one.join();
        two.join();
        if (count != 2) {
            throw new IllegalStateException("count " + count);
        }
        System.out.println("count " + count);
    }
}
