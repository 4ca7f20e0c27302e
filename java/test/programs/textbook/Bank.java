import java.util.*;

/** Accounts with their own exceptions, an interface and a log. */
public class Bank {
    static class InsufficientFundsException extends Exception {
        private final long missing;

        InsufficientFundsException(long missing) {
            super("Insufficient funds: missing " + missing);
            this.missing = missing;
        }

        long getMissing() {
            return missing;
        }
    }

    abstract static class Account {
        private static int next = 1000;
        final int number = next++;
        protected long balance;
        private final List<String> log = new ArrayList<>();

        void deposit(long amount) {
            if (amount <= 0) {
                throw new IllegalArgumentException("Deposit must be positive: " + amount);
            }
            balance += amount;
            log.add("+" + amount);
        }

        void withdraw(long amount) throws InsufficientFundsException {
            if (amount > available()) {
                throw new InsufficientFundsException(amount - available());
            }
            balance -= amount;
            log.add("-" + amount);
        }

        abstract long available();

        List<String> log() {
            return Collections.unmodifiableList(log);
        }

        @Override
        public String toString() {
            return String.format("%s %d: %,d", getClass().getSimpleName(), number, balance);
        }
    }

    static class Savings extends Account {
        long available() {
            return balance;
        }
    }

    static class Checking extends Account {
        private final long limit;

        Checking(long limit) {
            this.limit = limit;
        }

        long available() {
            return balance + limit;
        }
    }

    private final Map<Integer, Account> accounts = new LinkedHashMap<>();

    Account open(Account a) {
        accounts.put(a.number, a);
        return a;
    }

    void transfer(int from, int to, long amount) throws InsufficientFundsException {
        Account source = Optional.ofNullable(accounts.get(from)).orElseThrow(() -> new NoSuchElementException("No account " + from));
        source.withdraw(amount);
        accounts.get(to).deposit(amount);
    }

    public static void main(String[] args) {
        Bank bank = new Bank();
        Account s = bank.open(new Savings()), c = bank.open(new Checking(500));
        s.deposit(1_250_000);
        try {
            bank.transfer(s.number, c.number, 250_000);
            c.withdraw(250_400);
            bank.transfer(c.number, s.number, 1000);
        } catch (InsufficientFundsException e) {
            System.out.println(e.getMessage() + " / " + e.getMissing());
        }
        try {
            s.deposit(-5);
        } catch (IllegalArgumentException e) {
            System.out.println(e.getMessage());
        }
        try {
            bank.transfer(1, 2, 3);
        } catch (NoSuchElementException | InsufficientFundsException e) {
            System.out.println(e);
        }
        bank.accounts.values().forEach(System.out::println);
        System.out.println(s.log() + " " + c.log());
        try {
            s.log().add("cheat");
        } catch (UnsupportedOperationException e) {
            System.out.println("log is read-only");
        }
    }
}
