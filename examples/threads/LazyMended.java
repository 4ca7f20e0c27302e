/** Lazy, mended: get is synchronized, so the second thread tests after the first has written. */
public class LazyMended extends Thread {
    static Object instance;
    Object given;

    static synchronized Object get() {
        if (instance == null) instance = new Object();
        return instance;
    }

    public void run() {
        given = get();
    }

    public static void main(String[] words) throws InterruptedException {
        LazyMended one = new LazyMended();
        LazyMended two = new LazyMended();
        one.start();
        two.start();
        one.join();
        two.join();
        System.out.println(one.given == two.given ? 1 : 2);
    }
}
