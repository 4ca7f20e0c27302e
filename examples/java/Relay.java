// Needs: exceptions, threads

/** Threads one after another: classes below Thread, targets, joins of ended and of unstarted threads, a second start. */
public class Relay extends Thread {
    private final Thread before;
    private final String name;
    static int ran;

    Relay(Thread before, String name) {
        this.before = before;
        this.name = name;
    }

    public void run() {
        try {
            if (before != null) before.join();
        } catch (InterruptedException e) {
            System.out.println("not reached");
        }
        ran++;
        System.out.println(name);
    }

    public static void main(String[] words) throws InterruptedException {
        Relay first = new Relay(null, "first");
        Relay second = new Relay(first, "second");
        Relay third = new Relay(second, "third");
        first.start();
        second.start();
        third.start();
        third.join();
        System.out.println(ran);
        try {
            first.start();
        } catch (IllegalThreadStateException e) {
            System.out.println("started already");
        }
        Thread never = new Thread(first);
        never.join();
        new Relay(null, "run by main itself").run();
        Thread none = new Thread();
        none.start();
        none.join();
        Thread target = new Thread(new Relay(null, "as a target"));
        target.start();
        target.join();
        System.out.println(ran);
    }
}
