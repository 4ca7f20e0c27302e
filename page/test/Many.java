/** Nine threads, a deep stack, long names, long texts and much output: what the page has to bound. */
public class Many extends Thread {
    static int aCounterWithAVeryLongNameThatNoColumnOfATimelineCanEverShowInFull;
    static Object lock = new Object();
    static int[] numbers = new int[100];
    static String text = "LONGTEXT";

    static int deep(int n) {
        if (n == 0) {
            System.out.println(text);
            return 0;
        }
        return deep(n - 1) + 1;
    }

    public void run() {
        synchronized (lock) {
            aCounterWithAVeryLongNameThatNoColumnOfATimelineCanEverShowInFull++;
        }
    }

    public static void main(String[] words) throws InterruptedException {
        deep(60);
        Many[] all = new Many[9];
        for (int i = 0; i < all.length; i++) {
            all[i] = new Many();
            all[i].start();
        }
        for (int i = 0; i < all.length; i++) {
            all[i].join();
        }
        numbers[99] = aCounterWithAVeryLongNameThatNoColumnOfATimelineCanEverShowInFull;
    }
}
