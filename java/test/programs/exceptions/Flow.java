import java.util.*;

/** try, catch and finally in loops, nested, with returns, rethrown, chained. */
public class Flow {
    static String log = "";

    static int tricky(int n) {
        for (int i = 0; ; i++) {
            try {
                if (i == n) {
                    return i;
                }
                if (i % 2 == 0) {
                    continue;
                }
                throw new IllegalStateException("odd " + i);
            } catch (IllegalStateException e) {
                log += e.getMessage() + ";";
                if (i > 4) {
                    break;
                }
            } finally {
                log += "f" + i + ";";
            }
        }
        return -1;
    }

    static void rethrow(boolean wrap) throws Exception {
        try {
            Object o = "s";
            Integer i = (Integer) o;
            System.out.println(i);
        } catch (ClassCastException e) {
            if (wrap) {
                throw new Exception("wrapped", e);
            }
            throw e;
        }
    }

    static class Base extends Exception {
        Base(String m) {
            super(m);
        }
    }

    static class Derived extends Base {
        Derived() {
            super("derived");
        }

        @Override
        public String toString() {
            return "Derived!" + getMessage();
        }
    }

    static int nested() {
        int n = 0;
        try {
            try {
                n += 1;
                throw new Derived();
            } catch (Derived d) {
                n += 10;
                throw new Base("again " + d);
            } finally {
                n += 100;
            }
        } catch (Base b) {
            log += b.getMessage();
            n += 1000;
        } finally {
            n += 10000;
        }
        return n;
    }

    @SuppressWarnings("finally")
    static String overridden() {
        try {
            return "try";
        } finally {
            log += "[finally]";
        }
    }

    static <E extends Exception> void sneaky(Exception e) throws E {
        @SuppressWarnings("unchecked")
        E x = (E) e;
        throw x;
    }

    public static void main(String[] args) {
        System.out.println(tricky(2) + " " + tricky(9) + " " + log);
        log = "";
        System.out.println(nested() + " " + log + " " + overridden() + log);
        for (boolean w : new boolean[] {true, false}) {
            try {
                rethrow(w);
            } catch (RuntimeException e) {
                System.out.println("runtime " + e.getClass().getSimpleName());
            } catch (Exception e) {
                System.out.println(e.getMessage() + " " + (e.getCause() instanceof ClassCastException));
            }
        }
        try {
            Flow.<RuntimeException>sneaky(new java.io.IOException("checked"));
        } catch (Exception e) {
            System.out.println(e);
        }
        Throwable root = new IllegalArgumentException("root");
        Throwable t = new RuntimeException("top", new Exception("middle", root));
        while (t.getCause() != null) {
            t = t.getCause();
        }
        System.out.println(t == root);
        try {
            throw new Error("serious");
        } catch (Throwable e) {
            System.out.println(e + " " + (e instanceof Exception));
        }
        List<Class<?>> order = new ArrayList<>();
        for (RuntimeException e : new RuntimeException[] {new NullPointerException(), new IndexOutOfBoundsException(), new NumberFormatException(), new UnsupportedOperationException("x"), new ConcurrentModificationException()}) {
            order.add(e.getClass());
        }
        System.out.println(order);
        try {
            synchronized (Flow.class) {
                throw new IllegalStateException("leaves the monitor");
            }
        } catch (IllegalStateException e) {
            System.out.println(Thread.holdsLock(Flow.class));
        }
    }
}
