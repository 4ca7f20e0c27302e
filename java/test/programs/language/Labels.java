import java.util.*;

/** Scopes, shadowing, varargs, overloads, static nesting, instanceof chains. */
public class Labels {
    private int value = 1;

    static String which(Object o) {
        return "object";
    }

    static String which(String s) {
        return "string";
    }

    static String which(Integer i) {
        return "integer";
    }

    static String which(int i) {
        return "int";
    }

    static String which(long l) {
        return "long";
    }

    static String which(Object... all) {
        return "many " + all.length;
    }

    static String which(char c) {
        return "char";
    }

    static int sum(int first, int... rest) {
        int s = first;
        for (int r : rest) {
            s += r;
        }
        return s;
    }

    class Inner {
        private int value = 2;

        class Innermost {
            private int value = 3;

            String all(int value) {
                return value + " " + this.value + " " + Inner.this.value + " " + Labels.this.value;
            }
        }
    }

    static String kind(Object o) {
        if (o instanceof Integer) {
            return "I" + ((Integer) o + 1);
        } else if (o instanceof CharSequence) {
            return "S" + ((CharSequence) o).length();
        } else if (o instanceof int[]) {
            return "A" + ((int[]) o).length;
        } else if (o instanceof Object[]) {
            return "O" + ((Object[]) o).length;
        } else if (o instanceof List<?>) {
            return "L" + ((List<?>) o).size();
        }
        return o == null ? "null" : "?";
    }

    public static void main(String[] args) {
        byte b = 1;
        System.out.println(which("s") + " " + which(5) + " " + which(5L) + " " + which('c') + " " + which(b) + " " + which((Object) "s") + " " + which(Integer.valueOf(1)) + " " + which() + " " + which(1, 2) + " " + which(new StringBuilder()));
        System.out.println(sum(1) + " " + sum(1, 2, 3) + " " + sum(1, new int[] {5, 5}));
        Labels l = new Labels();
        Labels.Inner.Innermost i = l.new Inner().new Innermost();
        System.out.println(i.all(4));
        System.out.println(kind(4) + kind("four") + kind(new int[3]) + kind(new String[2]) + kind(Arrays.asList(1)) + kind(null) + kind('c') + kind(new StringBuilder("ab")));
        int x = 0;
        loop:
        while (true) {
            for (;;) {
                if (++x % 7 == 0) {
                    break loop;
                }
                if (x % 2 == 0) {
                    continue loop;
                }
            }
        }
        block: {
            if (x > 5) {
                break block;
            }
            x = -1;
        }
        System.out.println(x);
        for (int p = 0, q = 10; p < q; p += 3, q--) {
            System.out.print(p + q + " ");
        }
        System.out.println();
    }
}
