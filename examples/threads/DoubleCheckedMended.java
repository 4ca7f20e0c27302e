/**
 * DoubleChecked, mended: the first use of Holder initialises it, and the virtual machine has one thread do so while the
 * others wait (JVMS 5.5). Later calls take no lock.
 */
public class DoubleCheckedMended extends Thread {
    static class Holder {
        static final Object instance = new Object();
    }

    Object given;

    static Object get() {
        return Holder.instance;
    }

    public void run() {
        given = get();
    }

    public static void main(String[] words) throws InterruptedException {
        DoubleCheckedMended one = new DoubleCheckedMended();
        DoubleCheckedMended two = new DoubleCheckedMended();
        one.start();
        two.start();
        one.join();
        two.join();
        System.out.println(one.given == two.given ? 1 : 2);
    }
}
