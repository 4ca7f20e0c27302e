import java.util.*;
import java.util.concurrent.*;

/** Fork and join: sums, sorts, actions. */
public class ForkJoin {
    static class Sum extends RecursiveTask<Long> {
        final int[] a;
        final int from, to;

        Sum(int[] a, int from, int to) {
            this.a = a;
            this.from = from;
            this.to = to;
        }

        @Override
        protected Long compute() {
            if (to - from <= 8) {
                long s = 0;
                for (int i = from; i < to; i++) {
                    s += a[i];
                }
                return s;
            }
            int mid = (from + to) / 2;
            Sum left = new Sum(a, from, mid), right = new Sum(a, mid, to);
            left.fork();
            return right.compute() + left.join();
        }
    }

    static class Sort extends RecursiveAction {
        final int[] a;
        final int from, to;

        Sort(int[] a, int from, int to) {
            this.a = a;
            this.from = from;
            this.to = to;
        }

        @Override
        protected void compute() {
            if (to - from < 2) {
                return;
            }
            int mid = (from + to) / 2;
            invokeAll(new Sort(a, from, mid), new Sort(a, mid, to));
            int[] merged = new int[to - from];
            for (int i = from, j = mid, k = 0; k < merged.length; k++) {
                merged[k] = j >= to || i < mid && a[i] <= a[j] ? a[i++] : a[j++];
            }
            System.arraycopy(merged, 0, a, from, merged.length);
        }
    }

    public static void main(String[] args) throws Exception {
        int[] a = new int[64];
        for (int i = 0; i < a.length; i++) {
            a[i] = i * 37 % 64;
        }
        ForkJoinPool pool = new ForkJoinPool(3);
        System.out.println(pool.invoke(new Sum(a, 0, a.length)) + " " + pool.getParallelism());
        pool.invoke(new Sort(a, 0, a.length));
        System.out.println(a[0] + " " + a[31] + " " + a[63]);
        System.out.println(pool.submit(() -> "task").get());
        pool.shutdown();
        System.out.println(pool.awaitTermination(1, TimeUnit.SECONDS));
        System.out.println(ForkJoinPool.commonPool().invoke(new Sum(a, 0, 10)) + " " + new Sum(a, 0, 20).fork().join());
        ExecutorService stealing = Executors.newWorkStealingPool(2);
        List<Callable<Integer>> tasks = new ArrayList<>();
        for (int i = 0; i < 4; i++) {
            int n = i;
            tasks.add(() -> n + 1);
        }
        int total = 0;
        for (Future<Integer> f : stealing.invokeAll(tasks)) {
            total += f.get();
        }
        System.out.println(total);
    }
}
