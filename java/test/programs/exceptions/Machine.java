/** The messages of exceptions that the virtual machine itself throws. */
public class Machine {
    interface Step {
        Object run();
    }

    static void attempt(Step s) {
        try {
            System.out.println("got " + s.run());
        } catch (RuntimeException e) {
            System.out.println(e.getClass().getName() + ": " + e.getMessage());
        }
    }

    static int deep(int n) {
        return n == 0 ? 0 : 1 + deep(n - 1);
    }

    static int forever(int n) {
        return forever(n + 1) + 1;
    }

    public static void main(String[] args) {
        int[] a = new int[3];
        int five = 5, minus = -1, zero = 0;
        Object text = "text";
        attempt(() -> 1 / zero);
        attempt(() -> 1L % zero);
        attempt(() -> a[five]);
        attempt(() -> a[minus]);
        attempt(() -> {
            a[3] = 1;
            return null;
        });
        attempt(() -> new int[minus].length);
        attempt(() -> (Integer) text);
        attempt(() -> {
            Object[] o = new String[1];
            o[0] = 5;
            return o;
        });
        attempt(() -> new boolean[2][3][1].length);
        attempt(() -> {
            int[] b = {1, 2};
            int i = 0;
            return b[i++] + b[i++] + b[i++];
        });
        System.out.println(deep(50));
        try {
            forever(0);
        } catch (StackOverflowError e) {
            System.out.println("overflow " + e.getMessage());
        }
        try {
            Object o = null;
            o.toString();
        } catch (NullPointerException e) {
            System.out.println("null");
        }
        try {
            throw null;
        } catch (NullPointerException e) {
            System.out.println("null again");
        }
        try {
            Object o = new Machine();
            String s = (String) o;
            System.out.println(s);
        } catch (ClassCastException e) {
            System.out.println(e.getMessage());
        }
    }
}
