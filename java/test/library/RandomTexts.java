import java.util.*;

/** Random operations on StringBuilder, parsing and formats, with the messages of what they throw. */
public class RandomTexts {
    static long seed = 11;
    static final String LETTERS = "abcXYZ 019-+_.,\u00e4\u20ac";

    static int next(int bound) {
        seed = seed * 6364136223846793005L + 1442695040888963407L;
        return (int) ((seed >>> 33) % bound);
    }

    static String text(int most) {
        StringBuilder b = new StringBuilder();
        for (int n = next(most + 1); n > 0; n--) {
            b.append(LETTERS.charAt(next(LETTERS.length())));
        }
        return b.toString();
    }

    static Object operate(StringBuilder b) {
        int i = next(b.length() + 3) - 1, j = next(b.length() + 3) - 1;
        String s = text(4);
        switch (next(16)) {
            case 0:
            case 1:
                return b.append(s);
            case 2:
                return b.insert(i, s);
            case 3:
                return b.delete(i, j);
            case 4:
                return b.replace(i, j, s);
            case 5:
                return b.deleteCharAt(i);
            case 6:
                return b.reverse();
            case 7:
                b.setCharAt(i, 'Q');
                return b;
            case 8:
                return b.charAt(i);
            case 9:
                return b.substring(i, j);
            case 10:
                return b.indexOf(s, i) + " " + b.lastIndexOf(s);
            case 11:
                b.setLength(Math.min(i, 20));
                return b.length();
            case 12:
                return b.append(next(100000) - 50000).append(next(2) == 0);
            case 13:
                return b.toString().replace(s, "<>").trim().toUpperCase().hashCode();
            case 14:
                return b.toString().compareTo(s) + " " + b.toString().equalsIgnoreCase(s) + b.toString().startsWith(s);
            default:
                return Arrays.toString(b.toString().split(s.isEmpty() ? "," : s.substring(0, 1).replace(".", "x").replace("+", "y").replace("-", "z")));
        }
    }

    static String number() {
        String digits = "0123456789abcdefz";
        StringBuilder b = new StringBuilder(next(3) == 0 ? "-" : next(5) == 0 ? "+" : "");
        for (int n = next(20); n > 0; n--) {
            b.append(digits.charAt(next(next(8) == 0 ? 17 : 10)));
        }
        return b.toString();
    }

    static Object parse(String s) {
        switch (next(6)) {
            case 0:
                return Integer.parseInt(s);
            case 1:
                return Long.parseLong(s);
            case 2:
                return Integer.parseInt(s, 16);
            case 3:
                return Long.valueOf(s, 2 + next(34));
            case 4:
                return Integer.decode(s);
            default:
                return Short.parseShort(s.length() > 5 ? s.substring(0, 5) : s);
        }
    }

    static String format() {
        String flags = "-#+ 0,(";
        StringBuilder b = new StringBuilder("%");
        if (next(6) == 0) {
            b.append(1 + next(3)).append('$');
        }
        for (int n = next(3); n > 0; n--) {
            b.append(flags.charAt(next(flags.length())));
        }
        if (next(2) == 0) {
            b.append(1 + next(12));
        }
        if (next(5) == 0) {
            b.append('.').append(next(4));
        }
        return b.append("dxXosSbBcChHn%d".charAt(next(15))).toString();
    }

    static Object argument() {
        switch (next(6)) {
            case 0:
                return next(1000000) - 500000;
            case 1:
                return seed;
            case 2:
                return text(6);
            case 3:
                return 'q';
            case 4:
                return next(2) == 0;
            default:
                return null;
        }
    }

    interface Step {
        Object run();
    }

    static void show(String label, Step step) {
        String shown;
        try {
            shown = String.valueOf(step.run());
        } catch (RuntimeException e) {
            shown = e.getClass().getName() + ": " + e.getMessage();
        }
        System.out.println(label + " " + shown.replace('\n', '|'));
    }

    public static void main(String[] args) {
        StringBuilder b = new StringBuilder();
        for (int i = 0; i < 200; i++) {
            show("b" + i, () -> operate(b));
            if (b.length() > 40) {
                b.setLength(10);
            }
        }
        for (int i = 0; i < 150; i++) {
            String s = number();
            show("p" + i + " " + s, () -> parse(s));
        }
        for (int i = 0; i < 250; i++) {
            String f = format();
            Object x = argument(), y = argument(), z = argument();
            show("f" + i + " " + f, () -> String.format(f, x, y, z));
        }
    }
}
