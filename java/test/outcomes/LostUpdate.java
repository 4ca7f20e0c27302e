/** Two threads add 1 to a count without synchronization. */
public class LostUpdate {
    static int count;

    public static void main(String[] args) throws InterruptedException {
        Runnable add = () -> count = count + 1;
        Thread a = new Thread(add), b = new Thread(add);
        a.start();
        b.start();
        a.join();
        b.join();
        System.out.println("count " + count);
    }
}
