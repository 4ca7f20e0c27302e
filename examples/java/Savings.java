// Needs: monitors, threads

/** Two threads that pay into accounts, and keep the total of all in a static long, under the monitor of the class. */
public class Savings extends Thread {
    static final int ROUNDS = 60;
    static long total, most;
    private final Account[] accounts;
    private long seed;

    Savings(Account[] accounts, long seed) {
        this.accounts = accounts;
        this.seed = seed;
    }

    static class Account {
        private long balance, payments;

        synchronized long pay(long amount) {
            payments++;
            return balance += amount;
        }
    }

    static synchronized long count(long amount) {
        if (amount > most) most = amount;
        return total += amount;
    }

    private long next(long end) {
        seed = seed * 25214903917L + 11 & (1L << 48) - 1;
        return (seed >>> 16) % end;
    }

    public void run() {
        for (int round = 0; round < ROUNDS; round++) {
            long amount = next(4000000000L) - next(1000);
            accounts[(int) next(accounts.length)].pay(amount);
            count(amount);
        }
    }

    public static void main(String[] words) throws InterruptedException {
        Account[] accounts = {new Account(), new Account(), new Account()};
        Savings first = new Savings(accounts, 1), second = new Savings(accounts, 2);
        first.start();
        second.start();
        first.join();
        second.join();
        long[] sums = new long[2];
        for (int i = 0; i < accounts.length; i++) {
            System.out.println(sums[0] += accounts[i].balance);
            sums[1] += accounts[i].payments;
        }
        System.out.println(sums[1]);
        System.out.println(total == sums[0] ? "no cent is lost" : "a cent is lost");
        System.out.println(most);
    }
}
