// Needs: exceptions, monitors

/** Synchronized methods and blocks of one thread: entered again, left by return, by break and by exceptions. */
public class Monitors {
    private int value;
    private static int made;

    static synchronized Monitors make() {
        made++;
        return new Monitors();
    }

    synchronized int add(int n) {
        return n == 0 ? value : add(n - 1) + (value += n);
    }

    int both(Monitors other) {
        synchronized (this) {
            value++;
            synchronized (other) {
                other.value += value;
                return other.add(2);
            }
        }
    }

    synchronized void fails() {
        value = -1;
        throw new IllegalStateException("left by an exception");
    }

    int rounds() {
        int rounds = 0;
        while (true) {
            synchronized (this) {
                if (++rounds == 3) continue;
                if (rounds > 5) break;
                value += rounds;
            }
        }
        return rounds * 100 + value;
    }

    static int blockFails(Object monitor) {
        try {
            synchronized (monitor) {
                synchronized (monitor) {
                    throw new IllegalStateException("left twice");
                }
            }
        } catch (IllegalStateException e) {
            System.out.println(e.getMessage());
            return 1;
        }
    }

    public static void main(String[] words) {
        Monitors one = make(), other = make();
        System.out.println(one.add(4));
        System.out.println(one.both(other));
        System.out.println(one.both(one));
        try {
            other.fails();
        } catch (IllegalStateException e) {
            System.out.println(e.getMessage());
        }
        System.out.println(other.rounds());
        System.out.println(blockFails(other));
        try {
            blockFails(null);
        } catch (NullPointerException e) {
            System.out.println("null has no monitor");
        }
        System.out.println(made);
    }
}
