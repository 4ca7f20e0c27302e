/**
 * A lazy initialisation that races: get makes the object if there is none. main prints how many objects it returned.
 *
 * What goes wrong: both threads may find none, and then both make one. The later write replaces the object that the
 * other thread may have returned already.
 */
public class Lazy extends Thread {
    static Object instance;
    Object given;

    static Object get() {
        if (instance == null) instance = new Object();
        return instance;
    }

    public void run() {
        given = get();
    }

    public static void main(String[] words) throws InterruptedException {
        Lazy one = new Lazy();
        Lazy two = new Lazy();
        one.start();
        two.start();
        one.join();
        two.join();
        System.out.println(one.given == two.given ? 1 : 2);
    }
}
