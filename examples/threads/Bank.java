/**
 * A bank that pays twice: two threads withdraw 100 each from an account that holds 100.
 *
 * What goes wrong: read and write are synchronized, and withdraw isn't. Each call of read is right when it returns. The
 * monitor is free again then, so the other thread may write before this one uses what it has read.
 */
public class Bank extends Thread {
    static int balance = 100;
    int paid;

    static synchronized int read() {
        return balance;
    }

    static synchronized void write(int amount) {
        balance = amount;
    }

    static int withdraw() {
        if (read() < 100) return 0;
        write(read() - 100);
        return 100;
    }

    public void run() {
        paid = withdraw();
    }

    public static void main(String[] words) throws InterruptedException {
        Bank one = new Bank();
        Bank two = new Bank();
        one.start();
        two.start();
        one.join();
        two.join();
        System.out.println(one.paid + two.paid);
    }
}
