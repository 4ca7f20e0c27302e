// Needs: exceptions

/** What `finally` does on each way out: at the end, by return, break and continue, by an exception, and in nests. */
public class Finally {
    static int log;

    static void note(int digit) {
        log = log * 10 + digit;
    }

    static int way(int n) {
        for (int round = 0; round < 2; round++) {
            try {
                note(1);
                if (n == 1) return 1;
                if (n == 2) break;
                if (n == 3) continue;
                if (n == 4) throw new RuntimeException("thrown");
                note(2);
            } finally {
                note(3);
            }
            note(4);
        }
        note(5);
        return 0;
    }

    /** The value of a return is worked out before its finally. */
    static int kept() {
        int value = 5;
        try {
            return value;
        } finally {
            value = 6;
        }
    }

    static int replaced() {
        try {
            throw new Error("lost");
        } finally {
            return 8;
        }
    }

    static void nested(int n) {
        try {
            try {
                if (n == 0) throw new IllegalStateException("inner");
                note(1);
            } catch (IllegalStateException e) {
                note(2);
                if (n == 0) throw new IllegalArgumentException("outer");
            } finally {
                note(3);
                try {
                    note(4);
                } finally {
                    note(5);
                }
            }
            note(6);
        } catch (IllegalArgumentException e) {
            note(7);
        } finally {
            note(8);
        }
    }

    public static void main(String[] words) {
        for (int n = 0; n <= 4; n++) {
            log = 0;
            try {
                System.out.print(way(n));
            } catch (RuntimeException e) {
                System.out.print(e.getMessage());
            } finally {
                System.out.print(" ");
            }
            System.out.println(log);
        }
        System.out.println(kept());
        System.out.println(replaced());
        for (int n = 0; n < 2; n++) {
            log = 0;
            nested(n);
            System.out.println(log);
        }
    }
}
