package jx.raw;

/** Prints by the machine's System.out. Names aren't changed here: String is the machine's text. */
public final class Out {
    /** The texts of the units below 127, printed by one call each. */
    private static final String[] PLAIN = {
        "\0", "\1", "\2", "\3", "\4", "\5", "\6", "\7", "\10", "\11", "\n", "\13", "\14", "\r", "\16", "\17",
        "\20p", "\21", "\22", "\23", "\24", "\25", "\26", "\27", "\30", "\31", "\32", "\33", "\34", "\35", "\36", "\37",
        " ", "!", "\"", "#", "$", "%", "&", "'", "(", ")", "*", "+", ",", "-", ".", "/",
        "0", "1", "2", "3", "4", "5", "6", "7", "8", "9", ":", ";", "<", "=", ">", "?",
        "@", "A", "B", "C", "D", "E", "F", "G", "H", "I", "J", "K", "L", "M", "N", "O",
        "P", "Q", "R", "S", "T", "U", "V", "W", "X", "Y", "Z", "[", "\\", "]", "^", "_",
        "`", "a", "b", "c", "d", "e", "f", "g", "h", "i", "j", "k", "l", "m", "n", "o",
        "p", "q", "r", "s", "t", "u", "v", "w", "x", "y", "z", "{", "|", "}", "~",
    };
    private Out() {
    }

    /** Prints one UTF-16 code unit to standard output, or to standard error. */
    public static void unit(int unit, boolean error) {
        String[] table = error ? ErrorTexts.ALL : PLAIN;
        if (unit < table.length) {
            System.out.print(table[unit]);
            return;
        }
        System.out.print(error ? "\20v" : "\20u");
        for (int shift = 12; shift >= 0; shift -= 4) {
            int digit = unit >> shift & 15;
            System.out.print(PLAIN[digit < 10 ? '0' + digit : 'a' + digit - 10]);
        }
    }

    /** Prints a text constant of the machine. */
    public static void text(Object text) {
        System.out.print((String) text);
    }

    /** Prints a number in decimal. */
    public static void number(int number) {
        System.out.print(number);
    }

    /** Prints a number in decimal. */
    public static void number(long number) {
        System.out.print(number);
    }
}
