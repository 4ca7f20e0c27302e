import java.util.*;

/** Switches on ints, chars, texts, enums; labelled loops; the conditional operator. */
public class Switches {
    enum Op { ADD, SUB, MUL, NEG }

    static int apply(Op op, int a, int b) {
        switch (op) {
            case ADD:
                return a + b;
            case SUB:
                return a - b;
            case MUL:
                return a * b;
            default:
                return -a;
        }
    }

    static String size(int n) {
        switch (n) {
            case 0:
            case 1:
                return "tiny";
            case 10:
                return "ten";
            case 1000000:
                return "million";
            default:
                return n < 0 ? "negative" : "some";
        }
    }

    static int days(String month, boolean leap) {
        switch (month) {
            case "feb":
                return leap ? 29 : 28;
            case "apr":
            case "jun":
            case "sep":
            case "nov":
                return 30;
            case "Aa":
            case "BB":
                return -1;
            default:
                return 31;
        }
    }

    public static void main(String[] args) {
        for (Op op : Op.values()) {
            System.out.print(op + "=" + apply(op, 6, 7) + " ");
        }
        System.out.println();
        for (int n : new int[] {0, 1, 2, 10, -5, 1000000}) {
            System.out.print(size(n) + " ");
        }
        System.out.println();
        System.out.println(days("feb", true) + " " + days("jun", false) + " " + days("jan", false) + " " + days("Aa", false) + " " + days("BB", true) + " " + days("AaBB", true));
        int vowels = 0;
        for (char c : "programming in java".toCharArray()) {
            switch (c) {
                case 'a': case 'e': case 'i': case 'o': case 'u':
                    vowels++;
                    break;
                case ' ':
                    vowels += 100;
            }
        }
        System.out.println(vowels);
        outer:
        for (int i = 2; i < 50; i++) {
            for (int j = 2; j * j <= i; j++) {
                if (i % j == 0) {
                    continue outer;
                }
            }
            if (i > 40) {
                break outer;
            }
            System.out.print(i + " ");
        }
        System.out.println();
        int n = 27, steps = 0;
        do {
            n = (n & 1) == 0 ? n / 2 : 3 * n + 1;
            steps++;
        } while (n != 1);
        System.out.println(steps);
        StringBuilder fizz = new StringBuilder();
        for (int i = 1; i <= 15; i++) {
            fizz.append(i % 15 == 0 ? "FizzBuzz" : i % 5 == 0 ? "Buzz" : i % 3 == 0 ? "Fizz" : String.valueOf(i)).append(i < 15 ? "," : "\n");
        }
        System.out.print(fizz);
        Map<Op, Integer> uses = new EnumMap<>(Op.class);
        for (String s : "ADD MUL ADD".split(" ")) {
            uses.merge(Op.valueOf(s), 1, Integer::sum);
        }
        System.out.println(uses + " " + Op.MUL.ordinal() + " " + Op.ADD.compareTo(Op.NEG) + " " + Op.valueOf("SUB").name() + " " + Op.NEG.getDeclaringClass().getSimpleName());
    }
}
