/**
 * Three philosophers at a table with three forks. Each takes the left fork, and then the right one. Any two of them
 * share a fork, so no two eat at the same time.
 *
 * What goes wrong: if each takes its left fork, each waits for ever for the fork that the next one owns.
 */
public class Philosophers extends Thread {
    static int meals;

    final Object left;
    final Object right;

    Philosophers(Object left, Object right) {
        this.left = left;
        this.right = right;
    }

    public void run() {
        synchronized (left) {
            synchronized (right) {
                meals++;
            }
        }
    }

    public static void main(String[] words) throws InterruptedException {
        Object a = new Object();
        Object b = new Object();
        Object c = new Object();
        Thread one = new Philosophers(a, b);
        Thread two = new Philosophers(b, c);
        Thread three = new Philosophers(c, a);
        one.start();
        two.start();
        three.start();
        one.join();
        two.join();
        three.join();
        System.out.println(meals);
    }
}
