import java.util.ArrayList;
import java.util.Arrays;
import java.util.Collections;
import java.util.ConcurrentModificationException;
import java.util.Iterator;
import java.util.List;
import java.util.NoSuchElementException;
import java.util.Objects;

/** What exceptions say. */
public class Messages {
    static class Shop extends Exception {
        private final int code;

        Shop(String message, int code, Throwable cause) {
            super(message, cause);
            this.code = code;
        }

        int code() {
            return code;
        }
    }

    static class Quiet extends RuntimeException {
        @Override
        public String getMessage() {
            return "quiet";
        }
    }

    interface Step {
        void run() throws Exception;
    }

    static void attempt(String name, Step step) {
        try {
            step.run();
            System.out.println(name + " ok");
        } catch (Exception e) {
            System.out.println(name + ": " + e);
        }
    }

    enum Size { SMALL, LARGE }

    public static void main(String[] args) {
        int[] a = new int[3];
        int zero = args.length;
        List<String> list = new ArrayList<>(Arrays.asList("x", "y"));
        attempt("divide", () -> System.out.println(1 / zero));
        attempt("list", () -> list.get(5));
        attempt("fixed", () -> Arrays.asList(1).add(2));
        attempt("unmodifiable", () -> Collections.unmodifiableList(list).add("z"));
        attempt("iterator", () -> new ArrayList<String>().iterator().next());
        attempt("parse", () -> Integer.parseInt("4x"));
        attempt("enum", () -> Size.valueOf("HUGE"));
        attempt("null", () -> Objects.requireNonNull(null, "must be there"));
        attempt("null2", () -> Objects.requireNonNull(null));
        attempt("comod", () -> {
            for (String s : list) {
                list.remove(s + "");
                list.add("more");
            }
        });
        attempt("own", () -> {
            throw new Shop("closed", 7, new IllegalStateException("night"));
        });
        attempt("quiet", () -> {
            throw new Quiet();
        });
        attempt("no message", () -> {
            throw new IllegalArgumentException();
        });
        attempt("from cause", () -> {
            throw new RuntimeException(new Shop("inner", 1, null));
        });
        attempt("sublist", () -> list.subList(2, 1));
        attempt("index", () -> new ArrayList<Integer>().remove(0));
        attempt("capacity", () -> new ArrayList<Integer>(-1));
        try {
            throw new Shop("a", 3, new RuntimeException("b", new Error("c")));
        } catch (Shop e) {
            for (Throwable t = e; t != null; t = t.getCause()) {
                System.out.println(t.getClass().getSimpleName() + " " + t.getMessage());
            }
            System.out.println(e.code());
        }
        try {
            try {
                throw new IllegalStateException("first");
            } finally {
                System.out.println("finally");
            }
        } catch (IllegalStateException | NoSuchElementException e) {
            System.out.println("caught " + e.getMessage());
        }
        System.out.println(depth(0));
        Throwable t = new Exception("top");
        t.addSuppressed(new Exception("one"));
        t.addSuppressed(new Exception("two"));
        System.out.println(t.getSuppressed().length + " " + t.getSuppressed()[1].getMessage() + " " + t.getLocalizedMessage());
        t = new IllegalStateException("later").initCause(new Exception("set"));
        System.out.println(t.getCause().getMessage());
        try {
            t.initCause(null);
        } catch (IllegalStateException e) {
            System.out.println(e.getMessage());
        }
    }

    static int depth(int n) {
        try {
            return n > 5 ? n : depth(n + 1);
        } finally {
            if (n == 3) {
                System.out.println("at three");
            }
        }
    }
}
