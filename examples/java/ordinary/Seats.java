import java.util.Map;
import java.util.concurrent.ConcurrentHashMap;
import java.util.concurrent.atomic.AtomicInteger;

/**
 * Sells seats to two buyers. Each call of the map is safe for many threads, and the two of them together aren't: both buyers may find
 * the seat free. It is to be putIfAbsent.
 */
public class Seats {
    private final Map<String, String> sold = new ConcurrentHashMap<>();
    private final AtomicInteger tickets = new AtomicInteger();

    boolean buy(String seat, String buyer) {
        if (sold.containsKey(seat)) {
            return false;
        }
        sold.put(seat, buyer);
        tickets.incrementAndGet();
        return true;
    }

    public static void main(String[] args) throws InterruptedException {
        Seats seats = new Seats();
        Thread one = new Thread(() -> seats.buy("12A", "Ada"));
        Thread two = new Thread(() -> seats.buy("12A", "Bob"));
        one.start();
        two.start();
        one.join();
        two.join();
        System.out.println(seats.tickets + " tickets");
        if (seats.tickets.get() != seats.sold.size()) {
            throw new IllegalStateException("a seat was sold twice");
        }
    }
}
