// Needs: exceptions, monitors, threads

/** Accounts between which threads move money, under two monitors always taken in the same order. */
public class Bank {
    static class Account {
        final int number;
        private int balance;

        Account(int number, int balance) {
            this.number = number;
            this.balance = balance;
        }
    }

    private final Account[] accounts = new Account[5];
    private int refused;

    Bank() {
        for (int i = 0; i < accounts.length; i++) accounts[i] = new Account(i, 100);
    }

    void move(Account from, Account to, int amount) {
        synchronized (from.number < to.number ? from : to) {
            synchronized (from.number < to.number ? to : from) {
                if (from.balance < amount) throw new IllegalStateException();
                from.balance -= amount;
                to.balance += amount;
            }
        }
    }

    synchronized void refuse() {
        refused++;
    }

    Clerk clerk(int seed) {
        return new Clerk(seed);
    }

    class Clerk extends Thread {
        private int seed;
        private int done;

        Clerk(int seed) {
            this.seed = seed;
        }

        private int next(int end) {
            seed = seed * 1103515245 + 12345;
            return (seed >>> 16) % end;
        }

        public void run() {
            for (int i = 0; i < 40; i++) {
                try {
                    Account from = accounts[next(5)];
                    move(from, accounts[(from.number + 1 + next(4)) % 5], 1 + next(90));
                    done++;
                } catch (IllegalStateException e) {
                    refuse();
                }
            }
        }
    }

    public static void main(String[] words) throws InterruptedException {
        Bank bank = new Bank();
        Clerk[] clerks = new Clerk[3];
        for (int i = 0; i < clerks.length; i++) clerks[i] = bank.clerk(i + 1);
        for (int i = 0; i < clerks.length; i++) clerks[i].start();
        int done = 0;
        for (int i = 0; i < clerks.length; i++) {
            clerks[i].join();
            done += clerks[i].done;
        }
        int sum = 0;
        for (int i = 0; i < bank.accounts.length; i++) sum += bank.accounts[i].balance;
        System.out.println(sum);
        System.out.println(done + bank.refused);
    }
}
