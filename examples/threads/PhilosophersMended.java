/**
 * Philosophers, mended: the forks have an order, a before b before c, and each philosopher takes the earlier one first.
 * So the third takes a and then c. Of the forks that are taken, the owner of the last in this order waits for none.
 */
public class PhilosophersMended extends Thread {
    static int meals;

    final Object first;
    final Object second;

    PhilosophersMended(Object first, Object second) {
        this.first = first;
        this.second = second;
    }

    public void run() {
        synchronized (first) {
            synchronized (second) {
                meals++;
            }
        }
    }

    public static void main(String[] words) throws InterruptedException {
        Object a = new Object();
        Object b = new Object();
        Object c = new Object();
        Thread one = new PhilosophersMended(a, b);
        Thread two = new PhilosophersMended(b, c);
        Thread three = new PhilosophersMended(a, c);
        one.start();
        two.start();
        three.start();
        one.join();
        two.join();
        three.join();
        System.out.println(meals);
    }
}
