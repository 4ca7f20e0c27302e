import java.util.concurrent.*;

/** An offer that doesn't wait: it is taken by a poll that comes later, or the poll comes first. */
public class MissedSignal {
    public static void main(String[] args) throws InterruptedException {
        BlockingQueue<String> q = new ArrayBlockingQueue<>(1);
        String[] got = new String[1];
        Thread a = new Thread(() -> q.offer("item")), b = new Thread(() -> got[0] = q.poll());
        a.start();
        b.start();
        a.join();
        b.join();
        System.out.println(got[0] + " " + q.size());
    }
}
