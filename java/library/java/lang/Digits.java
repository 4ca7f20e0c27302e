package java.lang;

/** Numbers as texts, for the boxes. */
final class Digits {
    private Digits() {
    }

    /** Returns the number in the radix, with a minus if it is negative. */
    static String signed(long n, int radix) {
        char[] units = new char[65];
        int at = 65;
        long rest = n < 0 ? n : -n;
        do {
            units[--at] = digit((int) -(rest % radix));
            rest /= radix;
        } while (rest != 0);
        if (n < 0) {
            units[--at] = '-';
        }
        return new String(units, at, 65 - at);
    }

    /** Returns an int in decimal, in ints alone. */
    static String decimal(int n) {
        char[] units = new char[11];
        int at = 11;
        int rest = n < 0 ? n : -n;
        do {
            units[--at] = (char) ('0' - rest % 10);
            rest /= 10;
        } while (rest != 0);
        if (n < 0) {
            units[--at] = '-';
        }
        return new String(units, at, 11 - at);
    }

    /** Returns the bits of the number, so many for a digit. */
    static String bits(long n, int shift) {
        char[] units = new char[64];
        int at = 64;
        do {
            units[--at] = digit((int) n & (1 << shift) - 1);
            n >>>= shift;
        } while (n != 0);
        return new String(units, at, 64 - at);
    }

    static char digit(int d) {
        return (char) (d < 10 ? '0' + d : 'a' + d - 10);
    }

    static NumberFormatException input(String s, int radix) {
        return new NumberFormatException("For input string: \"" + s + "\"" + (radix == 10 ? "" : " under radix " + radix));
    }

    /** Reads a number between the borders, or throws as parseLong does. */
    static long parse(String s, int radix, long least, long most) {
        if (s == null) {
            throw new NumberFormatException("Cannot parse null string");
        }
        checkRadix(radix);
        int length = s.length();
        boolean negative = length > 0 && s.charAt(0) == '-';
        int at = negative || length > 0 && s.charAt(0) == '+' ? 1 : 0;
        if (at == length) {
            throw input(s, radix);
        }
        long border = negative ? least : -most;
        long before = border / radix;
        long n = 0;
        while (at < length) {
            int d = Character.digit(s.charAt(at++), radix);
            if (d < 0 || n < before || n * radix < border + d) {
                throw input(s, radix);
            }
            n = n * radix - d;
        }
        return negative ? n : -n;
    }

    private static void checkRadix(int radix) {
        if (radix < Character.MIN_RADIX) {
            throw new NumberFormatException("radix " + radix + " less than Character.MIN_RADIX");
        }
        if (radix > Character.MAX_RADIX) {
            throw new NumberFormatException("radix " + radix + " greater than Character.MAX_RADIX");
        }
    }

    /** Reads a number with a prefix for its radix, as decode does. */
    static long decode(String s, long least, long most) {
        if (s.isEmpty()) {
            throw new NumberFormatException("Zero length string");
        }
        boolean negative = s.charAt(0) == '-';
        int at = negative || s.charAt(0) == '+' ? 1 : 0;
        int radix = 10;
        if (s.startsWith("0x", at) || s.startsWith("0X", at)) {
            radix = 16;
            at += 2;
        } else if (s.startsWith("#", at)) {
            radix = 16;
            at++;
        } else if (s.startsWith("0", at) && s.length() > at + 1) {
            radix = 8;
            at++;
        }
        if (s.startsWith("-", at) || s.startsWith("+", at)) {
            throw new NumberFormatException("Sign character in wrong position");
        }
        String digits = s.substring(at);
        return parse(negative ? "-" + digits : digits, radix, least, most);
    }
}
