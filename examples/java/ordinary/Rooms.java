import java.util.HashMap;
import java.util.Map;
import java.util.concurrent.locks.Condition;
import java.util.concurrent.locks.ReentrantLock;

/** A hotel: guests wait until a room of their kind is free, by a lock with a condition for each kind. */
public class Rooms {
    enum Kind { SINGLE, DOUBLE }

    private final ReentrantLock desk = new ReentrantLock();
    private final Map<Kind, Integer> free = new HashMap<>();
    private final Map<Kind, Condition> returned = new HashMap<>();
    private int nights;

    Rooms(int singles, int doubles) {
        free.put(Kind.SINGLE, singles);
        free.put(Kind.DOUBLE, doubles);
        for (Kind kind : Kind.values()) {
            returned.put(kind, desk.newCondition());
        }
    }

    void take(Kind kind) throws InterruptedException {
        desk.lock();
        try {
            while (free.get(kind) == 0) {
                returned.get(kind).await();
            }
            free.merge(kind, -1, Integer::sum);
        } finally {
            desk.unlock();
        }
    }

    void giveBack(Kind kind) {
        desk.lock();
        try {
            free.merge(kind, 1, Integer::sum);
            nights++;
            returned.get(kind).signal();
        } finally {
            desk.unlock();
        }
    }

    private void stay(Kind kind) {
        try {
            take(kind);
            giveBack(kind);
        } catch (InterruptedException e) {
            Thread.currentThread().interrupt();
        }
    }

    public static void main(String[] args) throws InterruptedException {
        Rooms rooms = new Rooms(1, 1);
        Kind[] wishes = { Kind.SINGLE, Kind.DOUBLE, Kind.SINGLE };
        Thread[] guests = new Thread[wishes.length];
        for (int i = 0; i < guests.length; i++) {
            Kind wish = wishes[i];
            guests[i] = new Thread(() -> rooms.stay(wish));
            guests[i].start();
        }
        for (Thread guest : guests) {
            guest.join();
        }
        System.out.println(rooms.nights + " nights, free are " + rooms.free.get(Kind.SINGLE) + " and " + rooms.free.get(Kind.DOUBLE));
    }
}
