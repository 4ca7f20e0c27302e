/**
 * A lazy initialisation that takes its lock only if there is no object yet. Under jvmx both threads get one object by
 * every schedule, since each turn sees all turns before it.
 *
 * What goes wrong: a thread that finds none and then waits for the lock has read before the other thread's call, and
 * takes the lock after it. So get isn't atomic. In Java it is worse: instance isn't volatile, so a thread that doesn't
 * take the lock may see the object before its constructor's writes.
 */
public class DoubleChecked extends Thread {
    static Object instance;
    Object given;

    static Object get() {
        if (instance == null) {
            synchronized (DoubleChecked.class) {
                if (instance == null) instance = new Object();
            }
        }
        return instance;
    }

    public void run() {
        given = get();
    }

    public static void main(String[] words) throws InterruptedException {
        DoubleChecked one = new DoubleChecked();
        DoubleChecked two = new DoubleChecked();
        one.start();
        two.start();
        one.join();
        two.join();
        System.out.println(one.given == two.given ? 1 : 2);
    }
}
