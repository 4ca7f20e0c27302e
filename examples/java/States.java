/** Machines of states made of switches: dense, sparse, negative, at the ends of the ints, falling through. */
public class States {
    static final int START = 0, WORD = 1, NUMBER = 2, QUOTED = 3;

    static String kind(int state) {
        switch (state) {
            case WORD: return "word";
            case NUMBER: return "number";
            case QUOTED: return "quoted";
            default: return "nothing";
        }
    }

    static int next(int state, char letter) {
        switch (state) {
            case QUOTED:
                return letter == '\'' ? START : QUOTED;
            case START:
            case WORD:
            case NUMBER:
                switch (letter) {
                    case '\'': return QUOTED;
                    case ' ': case ',': case '\n': return START;
                    case '0': case '1': case '2': case '3': case '4': case '5': case '6': case '7': case '8': case '9':
                        return state == WORD ? WORD : NUMBER;
                    default: return WORD;
                }
            default:
                return -1;
        }
    }

    static void tokens(char[] text) {
        int state = START;
        int length = 0;
        for (int i = 0; i <= text.length; i++) {
            int then = i < text.length ? next(state, text[i]) : START;
            if (then != state && state != START) {
                System.out.print(kind(state));
                System.out.print(" of ");
                System.out.println(length);
            }
            length = then == state ? length + 1 : 1;
            state = then;
        }
    }

    static String size(int n) {
        switch (n) {
            case -2147483648: return "least";
            case -1000000: return "minus a million";
            case -1: return "minus one";
            case 0: return "zero";
            case 1000: return "a thousand";
            case 1000000: return "a million";
            case 2147483647: return "greatest";
        }
        return "something else";
    }

    static String edge(int n) {
        switch (n) {
            case 2147483645: return "third last";
            case 2147483646: return "second last";
            case 2147483647: return "last";
            default: return "before";
        }
    }

    static String low(int n) {
        switch (n) {
            case -2147483648: return "first";
            case -2147483647: return "second";
            case -2147483646: return "third";
        }
        return "behind";
    }

    static int days(int month, boolean leap) {
        int days = 0;
        switch (month) {
            case 12: days += 31;
            case 11: days += 30;
            case 10: days += 31;
            case 9: days += 30;
            case 8: days += 31;
            case 7: days += 31;
            case 6: days += 30;
            case 5: days += 31;
            case 4: days += 30;
            case 3: days += 31;
            case 2: days += leap ? 29 : 28;
            case 1: days += 31;
        }
        return days;
    }

    /** A machine that sells at 35: coins go in, and it says what it gives back. */
    static int sells(int[] coins) {
        int paid = 0;
        int sold = 0;
        for (int i = 0; i < coins.length; i++) {
            switch (coins[i]) {
                case 1: case 2: break;
                case 5: case 10: case 20: case 50: paid += coins[i]; break;
                default: return -1;
            }
            if (paid < 35) continue;
            paid -= 35;
            sold++;
        }
        return sold * 100 + paid;
    }

    static void empty(int n) {
        switch (n) {
        }
        switch (n) {
            default: System.out.println("by default");
        }
    }

    public static void main(String[] words) {
        tokens(new char[] {'s', 'u', 'm', ' ', '4', '2', ',', 'x', '1', '\'', 'a', ' ', '7', '\'', ' ', '9', '9', '9'});
        int[] sizes = {-2147483648, -2147483647, -1000000, -1, 0, 1, 999, 1000, 1000000, 2147483646, 2147483647};
        for (int i = 0; i < sizes.length; i++) System.out.println(size(sizes[i]));
        for (int n = 2147483643, i = 0; i < 6; i++) System.out.println(edge(n + i));
        for (int n = 2147483646, i = 0; i < 6; i++) System.out.println(low(n + i));
        for (int month = 0; month <= 13; month++) System.out.println(days(month, month % 2 == 0));
        System.out.println(sells(new int[] {20, 20, 1, 50, 10, 2, 5}));
        System.out.println(sells(new int[] {20, 3}));
        empty(4);
    }
}
