import java.util.concurrent.BrokenBarrierException;
import java.util.concurrent.CyclicBarrier;

/** Runners wait for each other after each lap: a barrier whose action notes the lap. */
public class Laps {
    private static final int RUNNERS = 3;
    private static final int LAPS = 4;

    private final int[] metres = new int[RUNNERS];
    private final StringBuilder board = new StringBuilder();
    private final CyclicBarrier line = new CyclicBarrier(RUNNERS, this::note);
    private int lap;

    private void note() {
        int sum = 0;
        for (int each : metres) {
            sum += each;
        }
        board.append("lap ").append(++lap).append(": ").append(sum).append(" metres\n");
    }

    private void run(int runner) {
        try {
            for (int n = 0; n < LAPS; n++) {
                metres[runner] += 100 * (runner + 1);
                line.await();
            }
        } catch (InterruptedException | BrokenBarrierException e) {
            throw new IllegalStateException(e);
        }
    }

    public static void main(String[] args) throws InterruptedException {
        Laps laps = new Laps();
        Thread[] threads = new Thread[RUNNERS];
        for (int i = 0; i < RUNNERS; i++) {
            int runner = i;
            threads[i] = new Thread(() -> laps.run(runner), "runner " + i);
            threads[i].start();
        }
        for (Thread thread : threads) {
            thread.join();
        }
        System.out.print(laps.board);
    }
}
