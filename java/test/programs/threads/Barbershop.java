import java.util.concurrent.*;
import java.util.concurrent.atomic.AtomicInteger;

/** The sleeping barber with semaphores: all who find a chair are shaved. */
public class Barbershop {
    static final Semaphore customers = new Semaphore(0), barber = new Semaphore(0), chairs = new Semaphore(1);
    static int free = 5;
    static final AtomicInteger shaved = new AtomicInteger();

    public static void main(String[] args) throws InterruptedException {
        Thread b = new Thread(() -> {
            try {
                for (int i = 0; i < 5; i++) {
                    customers.acquire();
                    chairs.acquire();
                    free++;
                    barber.release();
                    chairs.release();
                    shaved.incrementAndGet();
                }
            } catch (InterruptedException e) {
                System.out.println("barber goes home");
            }
        });
        b.start();
        Thread[] c = new Thread[5];
        for (int i = 0; i < c.length; i++) {
            c[i] = new Thread(() -> {
                try {
                    chairs.acquire();
                    if (free > 0) {
                        free--;
                        customers.release();
                        chairs.release();
                        barber.acquire();
                    } else {
                        chairs.release();
                        System.out.println("no chair");
                    }
                } catch (InterruptedException e) {
                    System.out.println("left");
                }
            });
            c[i].start();
        }
        for (Thread t : c) {
            t.join();
        }
        b.join();
        System.out.println("shaved " + shaved + ", free " + free);
    }
}
