import java.util.concurrent.*;

/** The faster of two futures. */
public class FirstOfTwo {
    public static void main(String[] args) throws Exception {
        CompletableFuture<String> first = new CompletableFuture<>();
        Thread a = new Thread(() -> first.complete("a")), b = new Thread(() -> first.complete("b"));
        a.start();
        b.start();
        System.out.println(first.get());
        a.join();
        b.join();
    }
}
