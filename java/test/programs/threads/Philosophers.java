import java.util.concurrent.locks.ReentrantLock;

/** Dining philosophers: by order of forks, and by tryLock. */
public class Philosophers {
    static final int N = 4;

    static void eatInOrder(ReentrantLock[] forks, int id, int[] meals) {
        int first = Math.min(id, (id + 1) % N), second = Math.max(id, (id + 1) % N);
        for (int i = 0; i < 3; i++) {
            forks[first].lock();
            try {
                forks[second].lock();
                try {
                    meals[id]++;
                } finally {
                    forks[second].unlock();
                }
            } finally {
                forks[first].unlock();
            }
        }
    }

    static void eatByTrying(ReentrantLock[] forks, int id, int[] meals) {
        while (meals[id] < 3) {
            if (forks[id].tryLock()) {
                try {
                    if (forks[(id + 1) % N].tryLock()) {
                        try {
                            meals[id]++;
                        } finally {
                            forks[(id + 1) % N].unlock();
                        }
                    }
                } finally {
                    forks[id].unlock();
                }
            }
            Thread.yield();
        }
    }

    interface Table {
        void sit(ReentrantLock[] forks, int id, int[] meals);
    }

    static void dine(Table table) throws InterruptedException {
        ReentrantLock[] forks = new ReentrantLock[N];
        for (int i = 0; i < N; i++) {
            forks[i] = new ReentrantLock();
        }
        int[] meals = new int[N];
        Thread[] all = new Thread[N];
        for (int i = 0; i < N; i++) {
            int id = i;
            all[i] = new Thread(() -> table.sit(forks, id, meals));
            all[i].start();
        }
        int total = 0;
        for (int i = 0; i < N; i++) {
            all[i].join();
            total += meals[i];
        }
        System.out.println("meals " + total);
    }

    public static void main(String[] args) throws InterruptedException {
        dine(Philosophers::eatInOrder);
        dine(Philosophers::eatByTrying);
    }
}
