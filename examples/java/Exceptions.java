// Needs: exceptions

/** Exceptions: thrown by programs and by the machine, caught by their class, thrown on, with messages and without. */
public class Exceptions {
    static class Refused extends Exception {
        final int code;

        Refused(String message, int code) {
            super(message);
            this.code = code;
        }
    }

    static class Worse extends Refused {
        Worse(int code) {
            super("worse", code);
        }
    }

    static int checked(int n) throws Refused {
        if (n > 10) throw new Worse(n);
        if (n > 5) throw new Refused("too many", n);
        if (n < 0) throw new RuntimeException();
        return n;
    }

    static void tried(int n) {
        try {
            System.out.println(checked(n));
        } catch (Worse worse) {
            System.out.println("worse than refused");
        } catch (Refused refused) {
            System.out.print(refused.getMessage());
            System.out.print(" ");
            System.out.println(refused.code);
        } catch (RuntimeException silent) {
            System.out.println(silent.getMessage());
        }
    }

    static Object thing;

    /** Does what the machine throws for. */
    static void fails(int way) {
        int zero = 0;
        int[] ints = new int[3], none = null;
        Object text = "a text";
        Object[] texts = new String[1];
        Refused refused = null;
        switch (way) {
            case 0: ints[0] = 1 / zero; break;
            case 1: ints[0] = 1 % zero; break;
            case 2: ints[0] = none[0]; break;
            case 3: none[0] = 1; break;
            case 4: ints[0] = none.length; break;
            case 5: ints[0] = refused.code; break;
            case 6: thing = refused.getMessage(); break;
            case 7: ints[3] = 1; break;
            case 8: ints[0] = ints[zero - 1]; break;
            case 9: texts[0] = new Object(); break;
            case 10: thing = (Runnable) text; break;
            case 11: thing = (int[]) text; break;
            case 12: thing = new int[zero - 1]; break;
            case 13: thing = new int[2][zero - 7]; break;
            case 14: thing = new String[zero - 2]; break;
            case 15: throw (Error) null;
            case 16: fails(16); break;
            default: System.out.println("nothing fails");
        }
    }

    static String kind(int way) {
        try {
            fails(way);
            return "no exception";
        } catch (ArithmeticException e) {
            return "ArithmeticException";
        } catch (NullPointerException e) {
            return "NullPointerException";
        } catch (ArrayIndexOutOfBoundsException e) {
            return "ArrayIndexOutOfBoundsException";
        } catch (ArrayStoreException e) {
            return "ArrayStoreException";
        } catch (ClassCastException e) {
            return "ClassCastException";
        } catch (NegativeArraySizeException e) {
            return "NegativeArraySizeException";
        } catch (StackOverflowError e) {
            return "StackOverflowError";
        }
    }

    /** Catches, and throws on to a handler around. */
    static int nested(int n) {
        int steps = 0;
        try {
            try {
                steps += 1;
                if (n == 0) throw new IllegalStateException("inner");
                if (n == 1) throw new IllegalArgumentException("passed by");
                steps += 10;
            } catch (IllegalStateException e) {
                steps += 100;
                System.out.println(e.getMessage());
                throw new IllegalArgumentException("thrown on");
            }
            steps += 1000;
        } catch (IllegalArgumentException e) {
            steps += 10000;
            System.out.println(e.getMessage());
        }
        return steps;
    }

    /** Leaves many frames at once. */
    static int deep(int depth) throws Refused {
        if (depth == 0) throw new Refused("from the depth", 42);
        return deep(depth - 1) + 1;
    }

    static boolean isSame() {
        RuntimeException thrown = new RuntimeException();
        try {
            throw thrown;
        } catch (Throwable caught) {
            return caught == thrown;
        }
    }

    public static void main(String[] words) throws Refused {
        for (int n = -1; n < 15; n += 4) tried(n);
        for (int way = 0; way <= 17; way++) System.out.println(kind(way));
        for (int n = 0; n < 3; n++) System.out.println(nested(n));
        System.out.println(isSame() ? "the same object" : "another object");
        try {
            deep(100);
        } catch (Refused refused) {
            System.out.println(refused.getMessage());
        }
        for (int round = 0, caught = 0; round < 5; round++) {
            try {
                if (round % 2 == 0) throw new Error();
                System.out.println(caught);
            } catch (Error error) {
                caught++;
            }
        }
    }
}
