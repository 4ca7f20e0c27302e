// Needs: exceptions

/** An exception that nobody catches ends the program, with what it has printed. */
public class Uncaught {
    static class Stopped extends IllegalStateException {
        Stopped(String message) {
            super(message);
        }
    }

    static void count(int n) {
        System.out.println(n);
        if (n == 0) throw new Stopped("at zero");
        count(n - 1);
        System.out.println("not reached");
    }

    public static void main(String[] words) {
        count(3);
        System.out.println("not reached");
    }
}
