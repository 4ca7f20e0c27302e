/**
 * Bank, mended: withdraw is synchronized too, so it owns the monitor from the test to the write. A thread may take a
 * monitor again that it owns, so withdraw still calls read and write.
 */
public class BankMended extends Thread {
    static int balance = 100;
    int paid;

    static synchronized int read() {
        return balance;
    }

    static synchronized void write(int amount) {
        balance = amount;
    }

    static synchronized int withdraw() {
        if (read() < 100) return 0;
        write(read() - 100);
        return 100;
    }

    public void run() {
        paid = withdraw();
    }

    public static void main(String[] words) throws InterruptedException {
        BankMended one = new BankMended();
        BankMended two = new BankMended();
        one.start();
        two.start();
        one.join();
        two.join();
        System.out.println(one.paid + two.paid);
    }
}
