package java.lang;

/** The box of a unit, and the properties of characters: those of ASCII here, all others by the JDK's tables. */
public final class Character implements Comparable<Character>, java.io.Serializable {
    public static final int MIN_RADIX = 2;
    public static final int MAX_RADIX = 36;
    public static final char MIN_VALUE = 0;
    public static final char MAX_VALUE = 0xffff;
    public static final int SIZE = 16;
    public static final int BYTES = 2;
    public static final Class<Character> TYPE = null;
    public static final char MIN_HIGH_SURROGATE = '\ud800';
    public static final char MAX_HIGH_SURROGATE = '\udbff';
    public static final char MIN_LOW_SURROGATE = '\udc00';
    public static final char MAX_LOW_SURROGATE = '\udfff';
    public static final char MIN_SURROGATE = '\ud800';
    public static final char MAX_SURROGATE = '\udfff';
    public static final int MIN_SUPPLEMENTARY_CODE_POINT = 0x10000;
    public static final int MIN_CODE_POINT = 0;
    public static final int MAX_CODE_POINT = 0x10ffff;
    public static final byte UNASSIGNED = 0;
    public static final byte UPPERCASE_LETTER = 1;
    public static final byte LOWERCASE_LETTER = 2;
    public static final byte TITLECASE_LETTER = 3;
    public static final byte MODIFIER_LETTER = 4;
    public static final byte OTHER_LETTER = 5;
    public static final byte NON_SPACING_MARK = 6;
    public static final byte ENCLOSING_MARK = 7;
    public static final byte COMBINING_SPACING_MARK = 8;
    public static final byte DECIMAL_DIGIT_NUMBER = 9;
    public static final byte LETTER_NUMBER = 10;
    public static final byte OTHER_NUMBER = 11;
    public static final byte SPACE_SEPARATOR = 12;
    public static final byte LINE_SEPARATOR = 13;
    public static final byte PARAGRAPH_SEPARATOR = 14;
    public static final byte CONTROL = 15;
    public static final byte FORMAT = 16;
    public static final byte PRIVATE_USE = 18;
    public static final byte SURROGATE = 19;
    public static final byte DASH_PUNCTUATION = 20;
    public static final byte START_PUNCTUATION = 21;
    public static final byte END_PUNCTUATION = 22;
    public static final byte CONNECTOR_PUNCTUATION = 23;
    public static final byte OTHER_PUNCTUATION = 24;
    public static final byte MATH_SYMBOL = 25;
    public static final byte CURRENCY_SYMBOL = 26;
    public static final byte MODIFIER_SYMBOL = 27;
    public static final byte OTHER_SYMBOL = 28;
    public static final byte INITIAL_QUOTE_PUNCTUATION = 29;
    public static final byte FINAL_QUOTE_PUNCTUATION = 30;

    private static final int LETTERS = 1 << 1 | 1 << 2 | 1 << 3 | 1 << 4 | 1 << 5;

    private final char value;

    public Character(char value) {
        this.value = value;
    }

    /** The boxes of ASCII; made at the first use. */
    private static final class Cache {
        static final Character[] ALL = new Character[128];

        static {
            for (int i = 0; i < 128; i++) {
                ALL[i] = new Character((char) i);
            }
        }
    }

    public static Character valueOf(char c) {
        return c < 128 ? Cache.ALL[c] : new Character(c);
    }

    public char charValue() {
        return value;
    }

    @Override
    public boolean equals(Object o) {
        return o instanceof Character && ((Character) o).value == value;
    }

    @Override
    public int hashCode() {
        return value;
    }

    public static int hashCode(char c) {
        return c;
    }

    @Override
    public String toString() {
        return String.valueOf(value);
    }

    public static String toString(char c) {
        return String.valueOf(c);
    }

    public static String toString(int point) {
        return new String(toChars(point));
    }

    @Override
    public int compareTo(Character o) {
        return value - o.value;
    }

    public static int compare(char a, char b) {
        return a - b;
    }

    public static char reverseBytes(char c) {
        return (char) (c << 8 | c >> 8);
    }

    // ---- code points

    public static boolean isValidCodePoint(int point) {
        return point >= 0 && point <= MAX_CODE_POINT;
    }

    public static boolean isBmpCodePoint(int point) {
        return point >>> 16 == 0;
    }

    public static boolean isSupplementaryCodePoint(int point) {
        return point >= MIN_SUPPLEMENTARY_CODE_POINT && point <= MAX_CODE_POINT;
    }

    public static boolean isHighSurrogate(char c) {
        return c >= MIN_HIGH_SURROGATE && c <= MAX_HIGH_SURROGATE;
    }

    public static boolean isLowSurrogate(char c) {
        return c >= MIN_LOW_SURROGATE && c <= MAX_LOW_SURROGATE;
    }

    public static boolean isSurrogate(char c) {
        return c >= MIN_SURROGATE && c <= MAX_SURROGATE;
    }

    public static boolean isSurrogatePair(char high, char low) {
        return isHighSurrogate(high) && isLowSurrogate(low);
    }

    public static int charCount(int point) {
        return point >= MIN_SUPPLEMENTARY_CODE_POINT ? 2 : 1;
    }

    public static int toCodePoint(char high, char low) {
        return ((high - MIN_HIGH_SURROGATE) << 10) + (low - MIN_LOW_SURROGATE) + MIN_SUPPLEMENTARY_CODE_POINT;
    }

    public static char highSurrogate(int point) {
        return (char) (MIN_HIGH_SURROGATE + (point - MIN_SUPPLEMENTARY_CODE_POINT >> 10));
    }

    public static char lowSurrogate(int point) {
        return (char) (MIN_LOW_SURROGATE + (point & 0x3ff));
    }

    public static char[] toChars(int point) {
        if (isBmpCodePoint(point)) {
            return new char[] {(char) point};
        }
        if (!isValidCodePoint(point)) {
            throw new IllegalArgumentException("Not a valid Unicode code point: 0x" + Integer.toHexString(point).toUpperCase());
        }
        return new char[] {highSurrogate(point), lowSurrogate(point)};
    }

    public static int toChars(int point, char[] target, int at) {
        char[] units = toChars(point);
        System.arraycopy(units, 0, target, at, units.length);
        return units.length;
    }

    public static int codePointAt(char[] units, int index) {
        return codePointAt(units, index, units.length);
    }

    public static int codePointAt(char[] units, int index, int limit) {
        char high = units[index];
        if (isHighSurrogate(high) && index + 1 < limit && isLowSurrogate(units[index + 1])) {
            return toCodePoint(high, units[index + 1]);
        }
        return high;
    }

    public static int codePointAt(CharSequence s, int index) {
        char high = s.charAt(index);
        if (isHighSurrogate(high) && index + 1 < s.length() && isLowSurrogate(s.charAt(index + 1))) {
            return toCodePoint(high, s.charAt(index + 1));
        }
        return high;
    }

    public static int codePointBefore(char[] units, int index) {
        char low = units[index - 1];
        if (isLowSurrogate(low) && index > 1 && isHighSurrogate(units[index - 2])) {
            return toCodePoint(units[index - 2], low);
        }
        return low;
    }

    public static int codePointBefore(CharSequence s, int index) {
        char low = s.charAt(index - 1);
        if (isLowSurrogate(low) && index > 1 && isHighSurrogate(s.charAt(index - 2))) {
            return toCodePoint(s.charAt(index - 2), low);
        }
        return low;
    }

    public static int codePointCount(char[] units, int from, int count) {
        int points = count;
        for (int i = from; i + 1 < from + count; i++) {
            if (isSurrogatePair(units[i], units[i + 1])) {
                points--;
                i++;
            }
        }
        return points;
    }

    public static int codePointCount(CharSequence s, int from, int to) {
        int points = to - from;
        for (int i = from; i + 1 < to; i++) {
            if (isSurrogatePair(s.charAt(i), s.charAt(i + 1))) {
                points--;
                i++;
            }
        }
        return points;
    }

    public static int offsetByCodePoints(CharSequence s, int index, int offset) {
        int at = index;
        for (int i = 0; i < offset; i++) {
            if (at >= s.length()) {
                throw new IndexOutOfBoundsException();
            }
            at += charCount(codePointAt(s, at));
        }
        for (int i = 0; i > offset; i--) {
            if (at <= 0) {
                throw new IndexOutOfBoundsException();
            }
            at -= charCount(codePointBefore(s, at));
        }
        return at;
    }

    // ---- properties

    public static int getType(int point) {
        return CharacterData.of(point).getType(point);
    }

    public static int getType(char c) {
        return getType((int) c);
    }

    private static boolean hasType(int point, int types) {
        return (types >> getType(point) & 1) != 0;
    }

    public static boolean isDigit(char c) {
        return isDigit((int) c);
    }

    public static boolean isDigit(int c) {
        return c < 128 ? c >= '0' && c <= '9' : getType(c) == DECIMAL_DIGIT_NUMBER;
    }

    public static boolean isLetter(char c) {
        return isLetter((int) c);
    }

    public static boolean isLetter(int c) {
        return c < 128 ? isUpperCase(c) || isLowerCase(c) : hasType(c, LETTERS);
    }

    public static boolean isLetterOrDigit(char c) {
        return isLetterOrDigit((int) c);
    }

    public static boolean isLetterOrDigit(int c) {
        return isLetter(c) || isDigit(c);
    }

    public static boolean isAlphabetic(int c) {
        return c < 128 ? isLetter(c) : hasType(c, LETTERS | 1 << LETTER_NUMBER) || CharacterData.of(c).isOtherAlphabetic(c);
    }

    public static boolean isIdeographic(int c) {
        return CharacterData.of(c).isIdeographic(c);
    }

    public static boolean isUpperCase(char c) {
        return isUpperCase((int) c);
    }

    public static boolean isUpperCase(int c) {
        return c < 128 ? c >= 'A' && c <= 'Z' : CharacterData.of(c).isUpperCase(c);
    }

    public static boolean isLowerCase(char c) {
        return isLowerCase((int) c);
    }

    public static boolean isLowerCase(int c) {
        return c < 128 ? c >= 'a' && c <= 'z' : CharacterData.of(c).isLowerCase(c);
    }

    public static boolean isTitleCase(char c) {
        return isTitleCase((int) c);
    }

    public static boolean isTitleCase(int c) {
        return getType(c) == TITLECASE_LETTER;
    }

    public static boolean isDefined(char c) {
        return isDefined((int) c);
    }

    public static boolean isDefined(int c) {
        return getType(c) != UNASSIGNED;
    }

    public static boolean isWhitespace(char c) {
        return isWhitespace((int) c);
    }

    public static boolean isWhitespace(int c) {
        return c < 128 ? c == ' ' || c >= 9 && c <= 13 || c >= 28 && c <= 31 : CharacterData.of(c).isWhitespace(c);
    }

    public static boolean isSpaceChar(char c) {
        return isSpaceChar((int) c);
    }

    public static boolean isSpaceChar(int c) {
        return c < 128 ? c == ' ' : hasType(c, 1 << SPACE_SEPARATOR | 1 << LINE_SEPARATOR | 1 << PARAGRAPH_SEPARATOR);
    }

    public static boolean isISOControl(char c) {
        return isISOControl((int) c);
    }

    public static boolean isISOControl(int c) {
        return c >= 0 && c < 32 || c >= 127 && c < 160;
    }

    public static boolean isMirrored(int c) {
        return CharacterData.of(c).isMirrored(c);
    }

    public static boolean isJavaIdentifierStart(char c) {
        return isJavaIdentifierStart((int) c);
    }

    public static boolean isJavaIdentifierStart(int c) {
        return c < 128 ? isLetter(c) || c == '_' || c == '$' : CharacterData.of(c).isJavaIdentifierStart(c);
    }

    public static boolean isJavaIdentifierPart(char c) {
        return isJavaIdentifierPart((int) c);
    }

    public static boolean isJavaIdentifierPart(int c) {
        return CharacterData.of(c).isJavaIdentifierPart(c);
    }

    public static boolean isUnicodeIdentifierStart(int c) {
        return CharacterData.of(c).isUnicodeIdentifierStart(c);
    }

    public static boolean isUnicodeIdentifierPart(int c) {
        return CharacterData.of(c).isUnicodeIdentifierPart(c);
    }

    public static boolean isIdentifierIgnorable(int c) {
        return CharacterData.of(c).isIdentifierIgnorable(c);
    }

    public static char toUpperCase(char c) {
        return (char) toUpperCase((int) c);
    }

    public static int toUpperCase(int c) {
        return c < 128 ? c >= 'a' && c <= 'z' ? c - 32 : c : CharacterData.of(c).toUpperCase(c);
    }

    public static char toLowerCase(char c) {
        return (char) toLowerCase((int) c);
    }

    public static int toLowerCase(int c) {
        return c < 128 ? c >= 'A' && c <= 'Z' ? c + 32 : c : CharacterData.of(c).toLowerCase(c);
    }

    public static char toTitleCase(char c) {
        return (char) toTitleCase((int) c);
    }

    public static int toTitleCase(int c) {
        return CharacterData.of(c).toTitleCase(c);
    }

    public static int digit(char c, int radix) {
        return digit((int) c, radix);
    }

    public static int digit(int c, int radix) {
        if (c >= 128) {
            return CharacterData.of(c).digit(c, radix);
        }
        int d = isDigit(c) ? c - '0' : isLetter(c) ? toLowerCase(c) - 'a' + 10 : -1;
        return d < radix && radix >= MIN_RADIX && radix <= MAX_RADIX ? d : -1;
    }

    public static char forDigit(int digit, int radix) {
        return digit < 0 || digit >= radix || radix < MIN_RADIX || radix > MAX_RADIX ? 0 : Digits.digit(digit);
    }

    public static int codePointOf(String name) {
        throw new UnsupportedOperationException("names of characters");
    }

    public static String getName(int point) {
        throw new UnsupportedOperationException("names of characters");
    }

    public static int getNumericValue(char c) {
        return getNumericValue((int) c);
    }

    public static int getNumericValue(int c) {
        return c < 128 ? digit(c, MAX_RADIX) : CharacterData.of(c).getNumericValue(c);
    }
}
