import java.util.*;
import java.util.concurrent.*;
import java.util.concurrent.locks.*;

/** Transfers between accounts in a fixed order of locks: the sum stays. */
public class Transfers {
    static class Account {
        final int id;
        private final Lock lock = new ReentrantLock();
        private int balance;

        Account(int id, int balance) {
            this.id = id;
            this.balance = balance;
        }
    }

    static boolean transfer(Account from, Account to, int amount) {
        Account first = from.id < to.id ? from : to, second = first == from ? to : from;
        first.lock.lock();
        second.lock.lock();
        try {
            if (from.balance < amount) {
                return false;
            }
            from.balance -= amount;
            to.balance += amount;
            return true;
        } finally {
            second.lock.unlock();
            first.lock.unlock();
        }
    }

    public static void main(String[] args) throws Exception {
        List<Account> accounts = new ArrayList<>();
        for (int i = 0; i < 4; i++) {
            accounts.add(new Account(i, 100));
        }
        Thread[] threads = new Thread[3];
        for (int t = 0; t < threads.length; t++) {
            Random random = new Random(t);
            threads[t] = new Thread(() -> {
                for (int i = 0; i < 10; i++) {
                    int a = random.nextInt(4), b = random.nextInt(4);
                    if (a != b) {
                        transfer(accounts.get(a), accounts.get(b), random.nextInt(50));
                    }
                }
            });
        }
        for (Thread t : threads) {
            t.start();
        }
        for (Thread t : threads) {
            t.join();
        }
        System.out.println(accounts.stream().mapToInt(a -> a.balance).sum() + " " + accounts.stream().allMatch(a -> a.balance >= 0));
    }
}
