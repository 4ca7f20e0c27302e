import java.util.*;

/** Names, states, interrupts, joins, daemons, handlers, thread locals. */
public class Basics {
    static final ThreadLocal<Integer> OWN = ThreadLocal.withInitial(() -> 7);

    public static void main(String[] args) throws Exception {
        Thread t = new Thread(() -> System.out.println("in " + Thread.currentThread().getName()));
        System.out.println(t.getName() + " " + t.getState() + " " + t.isAlive() + " " + t.isDaemon() + " " + t.getPriority());
        t.start();
        t.join();
        System.out.println(t.getState() + " " + t.isAlive());
        try {
            t.start();
        } catch (IllegalThreadStateException e) {
            System.out.println("started twice");
        }
        Thread named = new Thread(() -> { }, "worker");
        named.setName("renamed");
        named.setPriority(Thread.MAX_PRIORITY);
        System.out.println(named + " " + Thread.currentThread());
        Thread sleeper = new Thread(() -> {
            try {
                Thread.sleep(1_000_000);
            } catch (InterruptedException e) {
                System.out.println(e.getMessage() + " " + Thread.currentThread().isInterrupted());
            }
        });
        sleeper.start();
        Thread.sleep(10);
        System.out.println(sleeper.getState());
        sleeper.interrupt();
        sleeper.join();
        Thread.currentThread().interrupt();
        System.out.println(Thread.interrupted() + " " + Thread.interrupted());
        Thread failing = new Thread(() -> {
            throw new IllegalStateException("oops");
        }, "failing");
        failing.setUncaughtExceptionHandler((th, e) -> System.out.println(th.getName() + " died of " + e.getMessage()));
        failing.start();
        failing.join();
        OWN.set(1);
        Thread other = new Thread(() -> {
            System.out.println("other " + OWN.get());
            OWN.set(2);
        });
        other.start();
        other.join();
        System.out.println("main " + OWN.get());
        OWN.remove();
        System.out.println("again " + OWN.get());
        Thread daemon = new Thread(() -> {
            while (true) {
                try {
                    Thread.sleep(1000);
                } catch (InterruptedException e) {
                    return;
                }
            }
        });
        daemon.setDaemon(true);
        daemon.start();
        Thread slow = new Thread(() -> {
            try {
                Thread.sleep(500);
            } catch (InterruptedException e) {
                return;
            }
        });
        slow.start();
        slow.join(100);
        System.out.println("still " + slow.isAlive());
        slow.join();
        System.out.println("now " + slow.isAlive());
        Object lock = new Object();
        synchronized (lock) {
            long before = System.currentTimeMillis();
            lock.wait(50);
            System.out.println(System.currentTimeMillis() - before >= 50);
            System.out.println(Thread.holdsLock(lock) + " " + Thread.holdsLock(OWN));
        }
        try {
            lock.notify();
        } catch (IllegalMonitorStateException e) {
            System.out.println("not the owner");
        }
        Thread sub = new Thread() {
            @Override
            public void run() {
                System.out.println("subclass " + getName().startsWith("Thread-"));
            }
        };
        sub.start();
        sub.join();
        List<String> order = Collections.synchronizedList(new ArrayList<>());
        Thread[] sorted = new Thread[4];
        int[] times = {40, 10, 30, 20};
        for (int i = 0; i < 4; i++) {
            int ms = times[i];
            sorted[i] = new Thread(() -> {
                try {
                    Thread.sleep(ms * 40L);
                } catch (InterruptedException e) {
                    return;
                }
                order.add("" + ms);
            });
            sorted[i].start();
        }
        for (Thread s : sorted) {
            s.join();
        }
        System.out.println(order);
    }
}
