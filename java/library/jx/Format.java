package jx;

import java.util.IllegalFormatException;

/** Formats by the conversions of java.util.Formatter, but those of floating-point numbers and of dates. */
public final class Format {
    private static final String FLAGS = "-#+ 0,(<";

    private final String format;
    private final Object[] arguments;
    private final StringBuilder out = new StringBuilder();
    private int at;
    /** Where the specifier begins, after its percent sign. */
    private int start;
    private int ordinary = -1;
    private int last = -1;

    private String flags;
    private int index;
    private int width;
    private int precision;
    private char conversion;

    public Format(String format, Object[] arguments) {
        this.format = format;
        this.arguments = arguments;
    }

    /** Returns the formatted text. All specifiers are checked before the first is used. */
    public String text() {
        scan(false);
        scan(true);
        return out.toString();
    }

    private void scan(boolean writes) {
        int length = format.length();
        at = 0;
        while (at < length) {
            char c = format.charAt(at++);
            if (c == '%') {
                parse();
                check();
                if (writes) {
                    write();
                }
            } else if (writes) {
                out.append(c);
            }
        }
    }

    // ---- the specifier

    private void parse() {
        start = at;
        index = 0;
        int digits = number();
        if (digits > 0 && peek() == '$') {
            index = digits;
            at++;
            digits = -1;
        } else if (digits >= 0) {
            at = start;
            digits = -1;
        }
        int from = at;
        while (FLAGS.indexOf(peek()) >= 0) {
            char flag = format.charAt(at++);
            if (format.substring(from, at - 1).indexOf(flag) >= 0) {
                throw new java.util.DuplicateFormatFlagsException(String.valueOf(flag));
            }
        }
        flags = sorted(format.substring(from, at));
        width = number();
        precision = -1;
        if (peek() == '.') {
            at++;
            if (!isDigit(peek())) {
                throw incomplete();
            }
            precision = 0;
            while (isDigit(peek())) {
                precision = precision * 10 + format.charAt(at++) - '0';
            }
        }
        conversion = peek();
        at++;
    }

    private static String sorted(String flags) {
        StringBuilder b = new StringBuilder();
        for (int i = 0; i < FLAGS.length(); i++) {
            if (flags.indexOf(FLAGS.charAt(i)) >= 0) {
                b.append(FLAGS.charAt(i));
            }
        }
        return b.toString();
    }

    private IllegalFormatException unknown(char c) {
        return new java.util.UnknownFormatConversionException(String.valueOf(c));
    }

    /** Returns the exception of a specifier without its conversion, which names the specifier's first unit. */
    private IllegalFormatException incomplete() {
        return unknown(start < format.length() ? format.charAt(start) : '%');
    }

    private char peek() {
        if (at >= format.length()) {
            throw incomplete();
        }
        return format.charAt(at);
    }

    /** Reads a number, or returns -1 if there is none; a leading 0 is a flag. */
    private int number() {
        int n = -1;
        while (at < format.length() && (format.charAt(at) > '0' || n >= 0) && isDigit(format.charAt(at))) {
            n = (n < 0 ? 0 : n) * 10 + format.charAt(at++) - '0';
        }
        return n;
    }

    private static boolean isDigit(char c) {
        return c >= '0' && c <= '9';
    }

    private boolean has(char flag) {
        return flags.indexOf(flag) >= 0;
    }

    private Object argument() {
        int n = index > 0 ? index - 1 : has('<') ? last : ++ordinary;
        last = n;
        if (n < 0 || arguments != null && n >= arguments.length) {
            throw new java.util.MissingFormatArgumentException(specifier());
        }
        return arguments == null ? null : arguments[n];
    }

    private String specifier() {
        StringBuilder b = new StringBuilder("%").append(flags);
        if (index > 0) {
            b.append(index).append('$');
        }
        if (width >= 0) {
            b.append(width);
        }
        if (precision >= 0) {
            b.append('.').append(precision);
        }
        return b.append(conversion).toString();
    }

    // ---- the conversions

    private void check() {
        switch (conversion) {
            case 'n':
            case '%':
                checkText();
                return;
            case 'b':
            case 'B':
            case 's':
            case 'S':
            case 'h':
            case 'H':
                checkGeneral();
                return;
            case 'c':
            case 'C':
                checkCharacter();
                return;
            case 'd':
            case 'o':
            case 'x':
            case 'X':
                checkIntegral();
                return;
            case 'e':
            case 'E':
            case 'f':
            case 'g':
            case 'G':
            case 'a':
            case 'A':
                return;
            default:
                throw unknown(conversion);
        }
    }

    private void write() {
        switch (conversion) {
            case 'n':
                out.append('\n');
                return;
            case '%':
                pad("%");
                return;
            case 'c':
            case 'C':
                character(argument());
                return;
            case 'd':
            case 'o':
            case 'x':
            case 'X':
                integral(argument());
                return;
            case 'b':
            case 'B':
            case 's':
            case 'S':
            case 'h':
            case 'H':
                general(argument());
                return;
            default:
                floating(argument());
        }
    }

    private void checkText() {
        if (precision >= 0) {
            throw new java.util.IllegalFormatPrecisionException(precision);
        }
        boolean line = conversion == 'n';
        if (line && width >= 0) {
            throw new java.util.IllegalFormatWidthException(width);
        }
        if (!flags.isEmpty() && (line || !flags.equals("-"))) {
            throw new java.util.IllegalFormatFlagsException(flags);
        }
        checkWidth();
    }

    private void checkWidth() {
        if (width < 0 && has('-')) {
            throw new java.util.MissingFormatWidthException(specifier());
        }
    }

    private void checkGeneral() {
        if ((conversion == 'b' || conversion == 'B' || conversion == 'h' || conversion == 'H') && has('#')) {
            throw mismatch('#');
        }
        checkWidth();
        refuse("+ 0,(");
    }

    private void checkCharacter() {
        if (precision >= 0) {
            throw new java.util.IllegalFormatPrecisionException(precision);
        }
        checkWidth();
        refuse("#+ 0,(");
    }

    private void checkIntegral() {
        if (precision >= 0) {
            throw new java.util.IllegalFormatPrecisionException(precision);
        }
        refuse(conversion == 'd' ? "#" : ",");
        if (width < 0 && (has('-') || has('0'))) {
            throw new java.util.MissingFormatWidthException(specifier());
        }
        if (has('+') && has(' ') || has('-') && has('0')) {
            throw new java.util.IllegalFormatFlagsException(marked());
        }
    }

    /** Returns the flags with the mark of a conversion to upper case, as Java's message has it. */
    private String marked() {
        if (!isUpper()) {
            return flags;
        }
        return has('-') ? "-^" + flags.substring(1) : "^" + flags;
    }

    private void refuse(String without) {
        for (int i = 0; i < without.length(); i++) {
            if (has(without.charAt(i))) {
                throw mismatch(without.charAt(i));
            }
        }
    }

    private IllegalFormatException mismatch(char flag) {
        return new java.util.FormatFlagsConversionMismatchException(String.valueOf(flag), lower());
    }

    private char lower() {
        return Character.toLowerCase(conversion);
    }

    private boolean isUpper() {
        return conversion < 'a';
    }

    private IllegalFormatException notFor(Object argument) {
        return new java.util.IllegalFormatConversionException(lower(), argument.getClass());
    }

    private void general(Object argument) {
        char kind = lower();
        String s;
        if (kind == 'b') {
            s = argument instanceof Boolean ? argument.toString() : argument == null ? "false" : "true";
        } else if (argument == null) {
            s = "null";
        } else {
            s = kind == 'h' ? Integer.toHexString(argument.hashCode()) : argument.toString();
        }
        if (precision >= 0 && precision < s.length()) {
            s = s.substring(0, precision);
        }
        pad(isUpper() ? s.toUpperCase() : s);
    }

    private void character(Object argument) {
        String s;
        if (argument == null) {
            s = "null";
        } else if (argument instanceof Character) {
            s = argument.toString();
        } else if (argument instanceof Byte || argument instanceof Short || argument instanceof Integer) {
            int point = ((Number) argument).intValue();
            if (point < 0 || point > 0x10ffff) {
                throw new java.util.IllegalFormatCodePointException(point);
            }
            s = new StringBuilder().appendCodePoint(point).toString();
        } else {
            throw notFor(argument);
        }
        pad(isUpper() ? s.toUpperCase() : s);
    }

    private void integral(Object argument) {
        if (argument == null) {
            pad(isUpper() ? "NULL" : "null");
            return;
        }
        boolean big = argument instanceof java.math.BigInteger;
        if (!big && !(argument instanceof Byte || argument instanceof Short || argument instanceof Integer || argument instanceof Long)) {
            throw notFor(argument);
        }
        if (conversion == 'd' || big) {
            int radix = conversion == 'd' ? 10 : conversion == 'o' ? 8 : 16;
            String s = big ? ((java.math.BigInteger) argument).toString(radix) : argument.toString();
            signed(s.charAt(0) == '-', s.charAt(0) == '-' ? s.substring(1) : s);
        } else {
            refuse("( +");
            unsigned(bits(argument));
        }
    }

    private String bits(Object argument) {
        long n = ((Number) argument).longValue();
        if (!(argument instanceof Long)) {
            n &= argument instanceof Byte ? 0xffL : argument instanceof Short ? 0xffffL : 0xffffffffL;
        }
        return conversion == 'o' ? Long.toOctalString(n) : Long.toHexString(n);
    }

    private String prefix() {
        return !has('#') ? "" : conversion == 'o' ? "0" : "0x";
    }

    private void unsigned(String digits) {
        StringBuilder b = new StringBuilder(prefix());
        zeros(b, width - digits.length() - b.length());
        String s = b.append(digits).toString();
        pad(isUpper() ? s.toUpperCase() : s);
    }

    private void signed(boolean negative, String digits) {
        if (has(',')) {
            digits = grouped(digits);
        }
        StringBuilder b = new StringBuilder();
        boolean braces = negative && has('(');
        if (braces) {
            b.append('(');
        } else if (negative) {
            b.append('-');
        } else if (has('+')) {
            b.append('+');
        } else if (has(' ')) {
            b.append(' ');
        }
        if (conversion != 'd') {
            b.append(prefix());
        }
        zeros(b, width - digits.length() - b.length() - (braces ? 1 : 0));
        b.append(digits);
        if (braces) {
            b.append(')');
        }
        String s = b.toString();
        pad(isUpper() ? s.toUpperCase() : s);
    }

    private void zeros(StringBuilder b, int count) {
        if (has('0')) {
            for (int i = 0; i < count; i++) {
                b.append('0');
            }
        }
    }

    private static String grouped(String digits) {
        StringBuilder b = new StringBuilder();
        for (int i = 0; i < digits.length(); i++) {
            if (i > 0 && (digits.length() - i) % 3 == 0) {
                b.append(',');
            }
            b.append(digits.charAt(i));
        }
        return b.toString();
    }

    /** Refuses an argument that isn't a floating-point number as Java does, and null as text. */
    private void floating(Object argument) {
        if (argument != null) {
            throw notFor(argument);
        }
        pad(isUpper() ? "NULL" : "null");
    }

    private void pad(String s) {
        int spaces = width - s.length();
        if (has('-')) {
            out.append(s);
        }
        for (int i = 0; i < spaces; i++) {
            out.append(' ');
        }
        if (!has('-')) {
            out.append(s);
        }
    }
}
