import java.util.Queue;
import java.util.concurrent.ConcurrentLinkedQueue;
import java.util.concurrent.CountDownLatch;
import java.util.concurrent.Semaphore;
import java.util.concurrent.TimeUnit;

/** Five cars, two places, a millisecond for a minute. A driver waits for an hour and a half at most, and then looks elsewhere. */
public class Garage {
    private static final int CARS = 5;

    private final Semaphore places = new Semaphore(2, true);
    private final CountDownLatch left = new CountDownLatch(CARS);
    private final Queue<String> book = new ConcurrentLinkedQueue<>();

    private void visit(int car, int minutes) {
        try {
            TimeUnit.MILLISECONDS.sleep(10 * car);
            if (!places.tryAcquire(90, TimeUnit.MILLISECONDS)) {
                book.add("car " + car + " looks elsewhere");
                return;
            }
            book.add("car " + car + " parks for " + minutes + " minutes");
            TimeUnit.MILLISECONDS.sleep(minutes);
            places.release();
        } catch (InterruptedException e) {
            Thread.currentThread().interrupt();
        } finally {
            left.countDown();
        }
    }

    public static void main(String[] args) throws InterruptedException {
        Garage garage = new Garage();
        int[] minutes = { 300, 50, 40, 200, 30 };
        for (int i = 0; i < CARS; i++) {
            int car = i;
            new Thread(() -> garage.visit(car, minutes[car])).start();
        }
        garage.left.await();
        garage.book.forEach(System.out::println);
        System.out.println(garage.places.availablePermits() + " places are free");
    }
}
