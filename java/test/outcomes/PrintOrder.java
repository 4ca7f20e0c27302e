/** Two threads print a line each. */
public class PrintOrder {
    public static void main(String[] args) throws InterruptedException {
        Thread a = new Thread(() -> System.out.println("left")), b = new Thread(() -> System.out.println("right"));
        a.start();
        b.start();
        a.join();
        b.join();
    }
}
