import java.util.*;
import java.util.concurrent.*;
import java.util.stream.*;

/** Rows of a product by tasks; a barrier between the phases of a relaxation. */
public class Matrix {
    public static void main(String[] args) throws Exception {
        int n = 4;
        int[][] a = new int[n][n], b = new int[n][n], c = new int[n][n];
        for (int i = 0; i < n; i++) {
            for (int j = 0; j < n; j++) {
                a[i][j] = i + j;
                b[i][j] = i * j + 1;
            }
        }
        ExecutorService pool = Executors.newFixedThreadPool(2);
        List<Future<int[]>> rows = IntStream.range(0, n).mapToObj(i -> pool.submit(() -> {
            int[] row = new int[n];
            for (int j = 0; j < n; j++) {
                for (int k = 0; k < n; k++) {
                    row[j] += a[i][k] * b[k][j];
                }
            }
            return row;
        })).collect(Collectors.toList());
        for (int i = 0; i < n; i++) {
            c[i] = rows.get(i).get();
        }
        pool.shutdown();
        System.out.println(Arrays.deepToString(c));
        int[] cells = {0, 100, 0, 50, 0}, next = new int[5];
        CyclicBarrier barrier = new CyclicBarrier(3, () -> System.arraycopy(next, 1, cells, 1, 3));
        Thread[] t = new Thread[3];
        for (int w = 0; w < 3; w++) {
            int at = w + 1;
            t[w] = new Thread(() -> {
                try {
                    for (int r = 0; r < 3; r++) {
                        next[at] = (cells[at - 1] + cells[at + 1]) / 2;
                        barrier.await();
                    }
                } catch (InterruptedException | BrokenBarrierException e) {
                    System.out.println(e);
                }
            });
            t[w].start();
        }
        for (Thread x : t) {
            x.join();
        }
        System.out.println(Arrays.toString(cells));
    }
}
