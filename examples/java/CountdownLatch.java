// Needs: exceptions, monitors, threads

/** Latches that are counted down to 0: workers wait for one before their work, and main waits for one after it. */
public class CountdownLatch {
    private int left;

    CountdownLatch(int left) {
        this.left = left;
    }

    synchronized void countDown() {
        left--;
        if (left == 0) notifyAll();
    }

    synchronized void await() throws InterruptedException {
        while (left > 0) wait();
    }

    static class Worker extends Thread {
        private final int number;
        private final int[] sums;
        private final CountdownLatch begin;
        private final CountdownLatch end;

        Worker(int number, int[] sums, CountdownLatch begin, CountdownLatch end) {
            this.number = number;
            this.sums = sums;
            this.begin = begin;
            this.end = end;
        }

        /** Stores the sum of ten numbers. */
        void work() {
            int sum = 0;
            for (int i = 0; i < 10; i++) sum += number * 10 + i;
            sums[number] = sum;
        }

        public void run() {
            try {
                begin.await();
                work();
                end.countDown();
            } catch (InterruptedException e) {
                System.out.println("not reached");
            }
        }
    }

    public static void main(String[] words) throws InterruptedException {
        int[] sums = new int[4];
        CountdownLatch begin = new CountdownLatch(1), end = new CountdownLatch(sums.length);
        for (int i = 0; i < sums.length; i++) new Worker(i, sums, begin, end).start();
        System.out.println("ready");
        begin.countDown();
        end.await();
        int sum = 0;
        for (int i = 0; i < sums.length; i++) {
            System.out.println(sums[i]);
            sum += sums[i];
        }
        System.out.println(sum);
    }
}
