import java.util.concurrent.locks.Lock;
import java.util.concurrent.locks.ReentrantLock;

/**
 * Moves money between two accounts, each with its lock, in both directions at once. Each transfer takes the lock of the account that
 * pays first, so two of them may wait for each other for ever. They are to take the locks in one order.
 */
public class Transfers {
    static class Account {
        private final Lock lock = new ReentrantLock();
        private int balance;

        Account(int balance) {
            this.balance = balance;
        }
    }

    static void transfer(Account from, Account to, int amount) {
        from.lock.lock();
        try {
            to.lock.lock();
            try {
                from.balance -= amount;
                to.balance += amount;
            } finally {
                to.lock.unlock();
            }
        } finally {
            from.lock.unlock();
        }
    }

    public static void main(String[] args) throws InterruptedException {
        Account ours = new Account(100);
        Account yours = new Account(100);
        Thread one = new Thread(() -> transfer(ours, yours, 30));
        Thread two = new Thread(() -> transfer(yours, ours, 10));
        one.start();
        two.start();
        one.join();
        two.join();
        System.out.println(ours.balance + " and " + yours.balance);
    }
}
