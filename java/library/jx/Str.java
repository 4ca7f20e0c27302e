package jx;

import java.util.Comparator;
import java.util.Iterator;
import java.util.NoSuchElementException;
import java.util.Spliterators;
import java.util.stream.IntStream;
import java.util.stream.Stream;
import java.util.stream.StreamSupport;

/** The String of rewritten programs: holds its UTF-16 units itself, so that nothing has to read or make a text of the machine. */
public final class Str implements CharSequence, Comparable, java.io.Serializable {
    public static final Comparator CASE_INSENSITIVE_ORDER = new CaseInsensitive();

    final char[] value;
    /** The machine's text of a constant, which is printed by one call, or null. */
    final Object raw;
    private int hash;

    private static final class CaseInsensitive implements Comparator {
        public int compare(Object a, Object b) {
            return ((String) a).compareToIgnoreCase((String) b);
        }
    }

    /** Takes the units over; called by constants. */
    public Str(char[] units, Object raw) {
        value = units;
        this.raw = raw;
    }

    public Str() {
        this(new char[0], null);
    }

    public Str(char[] units) {
        this(units, 0, units.length);
    }

    public Str(char[] units, int from, int count) {
        checkRange(from, count, units.length);
        value = new char[count];
        Sys.arraycopy(units, from, value, 0, count);
        raw = null;
    }

    public Str(int[] points, int from, int count) {
        checkRange(from, count, points.length);
        StringBuilder b = new StringBuilder();
        for (int i = from; i < from + count; i++) {
            b.appendCodePoint(points[i]);
        }
        value = units(b.toString());
        raw = null;
    }

    public Str(byte[] bytes) {
        this(Utf8.decode(bytes, 0, bytes.length), null);
    }

    public Str(byte[] bytes, int from, int count) {
        this(Utf8.decode(bytes, from, count), null);
    }

    public Str(byte[] bytes, java.nio.charset.Charset charset) {
        this(Utf8.decode(bytes, charset), null);
    }

    public Str(byte[] bytes, String charset) {
        this(bytes, java.nio.charset.Charset.forName(charset));
    }

    public Str(String s) {
        value = units(s);
        raw = of(s).raw;
    }

    public Str(StringBuilder s) {
        this(units(s.toString()), null);
    }

    public Str(StringBuffer s) {
        this(units(s.toString()), null);
    }

    private static void checkRange(int from, int count, int length) {
        if (from < 0 || count < 0 || from > length - count) {
            throw new StringIndexOutOfBoundsException("offset " + from + ", count " + count + ", length " + length);
        }
    }

    private static Str of(Object s) {
        return (Str) s;
    }

    static char[] units(String s) {
        return of(s).value;
    }

    /** Makes a text of these units without a copy. */
    static String make(char[] units) {
        return (String) (Object) new Str(units, null);
    }

    private String self() {
        return (String) (Object) this;
    }

    // ---- units

    public int length() {
        return value.length;
    }

    public boolean isEmpty() {
        return value.length == 0;
    }

    public char charAt(int index) {
        if (index < 0 || index >= value.length) {
            throw new StringIndexOutOfBoundsException(index);
        }
        return value[index];
    }

    private StringIndexOutOfBoundsException outOfBounds(int index) {
        return new StringIndexOutOfBoundsException("index " + index + ", length " + value.length);
    }

    public int codePointAt(int index) {
        if (index < 0 || index >= value.length) {
            throw outOfBounds(index);
        }
        return Character.codePointAt(value, index);
    }

    public int codePointBefore(int index) {
        if (index < 1 || index > value.length) {
            throw new StringIndexOutOfBoundsException(index);
        }
        return Character.codePointBefore(value, index);
    }

    public int codePointCount(int from, int to) {
        if (from < 0 || to > value.length || from > to) {
            throw new IndexOutOfBoundsException();
        }
        return Character.codePointCount(value, from, to - from);
    }

    public int offsetByCodePoints(int index, int offset) {
        if (index < 0 || index > value.length) {
            throw new IndexOutOfBoundsException();
        }
        return Character.offsetByCodePoints(self(), index, offset);
    }

    public void getChars(int from, int to, char[] target, int at) {
        checkBounds(from, to, value.length);
        Sys.arraycopy(value, from, target, at, to - from);
    }

    public char[] toCharArray() {
        return copy(0, value.length);
    }

    private char[] copy(int from, int to) {
        char[] units = new char[to - from];
        Sys.arraycopy(value, from, units, 0, to - from);
        return units;
    }

    public byte[] getBytes() {
        return Utf8.encode(value);
    }

    public byte[] getBytes(java.nio.charset.Charset charset) {
        return Utf8.encode(value, charset);
    }

    public byte[] getBytes(String charset) {
        return getBytes(java.nio.charset.Charset.forName(charset));
    }

    public IntStream chars() {
        return StreamSupport.intStream(Spliterators.spliterator(new Units(value), value.length, 16), false);
    }

    public IntStream codePoints() {
        return java.util.Arrays.stream(points());
    }

    private int[] points() {
        int[] points = new int[Character.codePointCount(value, 0, value.length)];
        int at = 0;
        for (int i = 0; i < points.length; i++) {
            points[i] = Character.codePointAt(value, at);
            at += Character.charCount(points[i]);
        }
        return points;
    }

    /** Iterates over units. */
    private static final class Units implements java.util.PrimitiveIterator.OfInt {
        private final char[] units;
        private int next;

        Units(char[] units) {
            this.units = units;
        }

        public boolean hasNext() {
            return next < units.length;
        }

        public int nextInt() {
            if (next >= units.length) {
                throw new NoSuchElementException();
            }
            return units[next++];
        }
    }

    // ---- comparison

    public int hashCode() {
        int h = hash;
        if (h == 0) {
            char[] units = value;
            for (int i = 0; i < units.length; i++) {
                h = 31 * h + units[i];
            }
            hash = h;
        }
        return h;
    }

    public boolean equals(Object o) {
        if (o == this) {
            return true;
        }
        return o instanceof Str && same(value, of(o).value);
    }

    private static boolean same(char[] a, char[] b) {
        if (a.length != b.length) {
            return false;
        }
        for (int i = 0; i < a.length; i++) {
            if (a[i] != b[i]) {
                return false;
            }
        }
        return true;
    }

    public boolean contentEquals(CharSequence s) {
        return same(value, units(s.toString()));
    }

    public boolean contentEquals(StringBuffer s) {
        return same(value, units(s.toString()));
    }

    public boolean equalsIgnoreCase(String s) {
        return s != null && s.length() == value.length && compareToIgnoreCase(s) == 0;
    }

    public int compareTo(Object o) {
        char[] a = value;
        char[] b = of(o).value;
        int n = Math.min(a.length, b.length);
        for (int i = 0; i < n; i++) {
            if (a[i] != b[i]) {
                return a[i] - b[i];
            }
        }
        return a.length - b.length;
    }

    public int compareTo(String s) {
        return compareTo((Object) s);
    }

    public int compareToIgnoreCase(String s) {
        char[] a = value;
        char[] b = units(s);
        int n = Math.min(a.length, b.length);
        for (int i = 0; i < n; i++) {
            int difference = fold(a[i]) - fold(b[i]);
            if (difference != 0) {
                return difference;
            }
        }
        return a.length - b.length;
    }

    private static char fold(char c) {
        return Character.toLowerCase(Character.toUpperCase(c));
    }

    public boolean regionMatches(int at, String s, int from, int count) {
        return regionMatches(false, at, s, from, count);
    }

    public boolean regionMatches(boolean ignoreCase, int at, String s, int from, int count) {
        char[] other = units(s);
        if (from < 0 || at < 0 || at > (long) value.length - count || from > (long) other.length - count) {
            return false;
        }
        for (int i = 0; i < count; i++) {
            char a = value[at + i];
            char b = other[from + i];
            if (a != b && !(ignoreCase && fold(a) == fold(b))) {
                return false;
            }
        }
        return true;
    }

    public boolean startsWith(String s) {
        return startsWith(s, 0);
    }

    public boolean startsWith(String s, int at) {
        return at >= 0 && regionMatches(false, at, s, 0, s.length());
    }

    public boolean endsWith(String s) {
        return startsWith(s, value.length - s.length());
    }

    // ---- search

    public int indexOf(int c) {
        return indexOf(c, 0);
    }

    public int indexOf(int c, int from) {
        if (c > 0xffff) {
            return indexOf(Character.toString(c), from);
        }
        char[] units = value;
        for (int i = Math.max(from, 0); i < units.length; i++) {
            if (units[i] == c) {
                return i;
            }
        }
        return -1;
    }

    public int lastIndexOf(int c) {
        return lastIndexOf(c, value.length - 1);
    }

    public int lastIndexOf(int c, int from) {
        if (c > 0xffff) {
            return lastIndexOf(Character.toString(c), from);
        }
        for (int i = Math.min(from, value.length - 1); i >= 0; i--) {
            if (value[i] == c) {
                return i;
            }
        }
        return -1;
    }

    public int indexOf(String s) {
        return indexOf(s, 0);
    }

    public int indexOf(String s, int from) {
        char[] wanted = units(s);
        int last = value.length - wanted.length;
        if (wanted.length == 0) {
            return Math.max(0, Math.min(from, value.length));
        }
        for (int i = Math.max(from, 0); i <= last; i++) {
            if (value[i] == wanted[0] && startsWith(s, i)) {
                return i;
            }
        }
        return -1;
    }

    public int lastIndexOf(String s) {
        return lastIndexOf(s, value.length);
    }

    public int lastIndexOf(String s, int from) {
        for (int i = Math.min(from, value.length - s.length()); i >= 0; i--) {
            if (startsWith(s, i)) {
                return i;
            }
        }
        return -1;
    }

    public boolean contains(CharSequence s) {
        return indexOf(s.toString()) >= 0;
    }

    // ---- parts and changed copies

    public String substring(int from) {
        if (from < 0 || from > value.length) {
            checkBounds(from, value.length, value.length);
        }
        return substring(from, value.length);
    }

    public String substring(int from, int to) {
        checkBounds(from, to, value.length);
        return from == 0 && to == value.length ? self() : make(copy(from, to));
    }

    static void checkBounds(int from, int to, int length) {
        if (from < 0 || to > length || from > to) {
            throw new StringIndexOutOfBoundsException("begin " + from + ", end " + to + ", length " + length);
        }
    }

    public CharSequence subSequence(int from, int to) {
        return substring(from, to);
    }

    public String concat(String s) {
        char[] other = units(s);
        if (other.length == 0) {
            return self();
        }
        char[] units = new char[value.length + other.length];
        Sys.arraycopy(value, 0, units, 0, value.length);
        Sys.arraycopy(other, 0, units, value.length, other.length);
        return make(units);
    }

    public String repeat(int count) {
        if (count < 0) {
            throw new IllegalArgumentException("count is negative: " + count);
        }
        char[] units = new char[value.length * count];
        for (int i = 0; i < count; i++) {
            Sys.arraycopy(value, 0, units, i * value.length, value.length);
        }
        return make(units);
    }

    public String trim() {
        int from = 0;
        int to = value.length;
        while (from < to && value[from] <= ' ') {
            from++;
        }
        while (from < to && value[to - 1] <= ' ') {
            to--;
        }
        return substring(from, to);
    }

    public String strip() {
        return of(stripLeading()).stripTrailing();
    }

    public String stripLeading() {
        int from = 0;
        while (from < value.length && Character.isWhitespace(value[from])) {
            from++;
        }
        return substring(from);
    }

    public String stripTrailing() {
        int to = value.length;
        while (to > 0 && Character.isWhitespace(value[to - 1])) {
            to--;
        }
        return substring(0, to);
    }

    public boolean isBlank() {
        return of(stripLeading()).isEmpty();
    }

    public Stream lines() {
        java.util.ArrayList lines = new java.util.ArrayList();
        int start = 0;
        for (int i = 0; i < value.length; i++) {
            if (value[i] == '\n' || value[i] == '\r') {
                lines.add(substring(start, i));
                if (value[i] == '\r' && i + 1 < value.length && value[i + 1] == '\n') {
                    i++;
                }
                start = i + 1;
            }
        }
        if (start < value.length) {
            lines.add(substring(start));
        }
        return lines.stream();
    }

    public String replace(char old, char with) {
        if (indexOf(old) < 0) {
            return self();
        }
        char[] units = toCharArray();
        for (int i = 0; i < units.length; i++) {
            if (units[i] == old) {
                units[i] = with;
            }
        }
        return make(units);
    }

    public String replace(CharSequence old, CharSequence with) {
        String wanted = old.toString();
        String by = with.toString();
        int at = indexOf(wanted);
        if (at < 0) {
            return self();
        }
        StringBuilder b = new StringBuilder();
        int done = 0;
        int step = Math.max(wanted.length(), 1);
        while (at >= 0) {
            b.append(value, done, at - done).append(by);
            done = at + wanted.length();
            at = at + step > value.length ? -1 : indexOf(wanted, at + step);
        }
        return b.append(value, done, value.length - done).toString();
    }

    public String toUpperCase() {
        char[] units = toCharArray();
        for (int i = 0; i < units.length; i++) {
            if (units[i] == '\u00df') {
                return wideUpperCase();
            }
            units[i] = Character.toUpperCase(units[i]);
        }
        return same(units, value) ? self() : make(units);
    }

    private String wideUpperCase() {
        StringBuilder b = new StringBuilder();
        for (int i = 0; i < value.length; i++) {
            if (value[i] == '\u00df') {
                b.append("SS");
            } else {
                b.append(Character.toUpperCase(value[i]));
            }
        }
        return b.toString();
    }

    public String toLowerCase() {
        char[] units = toCharArray();
        for (int i = 0; i < units.length; i++) {
            units[i] = Character.toLowerCase(units[i]);
        }
        return same(units, value) ? self() : make(units);
    }

    public String toUpperCase(java.util.Locale locale) {
        return toUpperCase();
    }

    public String toLowerCase(java.util.Locale locale) {
        return toLowerCase();
    }

    public String toString() {
        return self();
    }

    /** Returns the constant of the program with these units, or else the first text that was interned with them. */
    public String intern() {
        String literal = jx.gen.Names.literal(self());
        return literal != null ? literal : Interned.of(self());
    }

    /** The texts that were interned and aren't constants; made at the first use. */
    private static final class Interned {
        private static final java.util.HashMap ALL = new java.util.HashMap();

        static synchronized String of(String s) {
            Object old = ALL.get(s);
            if (old == null) {
                ALL.put(s, s);
                old = s;
            }
            return (String) old;
        }
    }

    // ---- regular expressions, by java.util.regex

    public boolean matches(String regex) {
        return java.util.regex.Pattern.matches(regex, self());
    }

    public String replaceAll(String regex, String with) {
        return java.util.regex.Pattern.compile(regex).matcher(self()).replaceAll(with);
    }

    public String replaceFirst(String regex, String with) {
        return java.util.regex.Pattern.compile(regex).matcher(self()).replaceFirst(with);
    }

    public String[] split(String regex) {
        return split(regex, 0);
    }

    public String[] split(String regex, int limit) {
        int plain = plainSeparator(regex);
        return plain >= 0 ? splitAt(String.valueOf((char) plain), limit) : java.util.regex.Pattern.compile(regex).split(self(), limit);
    }

    /** Returns the unit that the regex matches, if it matches one plain unit alone, else -1. */
    private static int plainSeparator(String regex) {
        if (regex.length() == 1 && ".$|()[{^?*+\\".indexOf(regex.charAt(0)) < 0) {
            return regex.charAt(0);
        }
        if (regex.length() == 2 && regex.charAt(0) == '\\') {
            char c = regex.charAt(1);
            if (c < 128 && !Character.isLetterOrDigit(c)) {
                return c;
            }
        }
        return -1;
    }

    /** Splits at a text without special characters; the tool calls this where the regex is such a constant. */
    public String[] splitPlain(String separator) {
        return splitAt(separator, 0);
    }

    private String[] splitAt(String separator, int limit) {
        java.util.ArrayList parts = new java.util.ArrayList();
        int start = 0;
        int at = indexOf(separator);
        if (at < 0) {
            return new String[] {self()};
        }
        while (at >= 0 && (limit <= 0 || parts.size() < limit - 1)) {
            parts.add(substring(start, at));
            start = at + separator.length();
            at = indexOf(separator, start);
        }
        parts.add(substring(start));
        int count = parts.size();
        while (limit == 0 && count > 0 && ((String) parts.get(count - 1)).isEmpty()) {
            count--;
        }
        String[] result = new String[count];
        for (int i = 0; i < count; i++) {
            result[i] = (String) parts.get(i);
        }
        return result;
    }

    // ---- static members

    public static String join(CharSequence separator, CharSequence[] parts) {
        StringBuilder b = new StringBuilder();
        for (int i = 0; i < parts.length; i++) {
            if (i > 0) {
                b.append(separator);
            }
            b.append(parts[i]);
        }
        return b.toString();
    }

    public static String join(CharSequence separator, Iterable parts) {
        StringBuilder b = new StringBuilder();
        Iterator i = parts.iterator();
        while (i.hasNext()) {
            b.append(i.next());
            if (i.hasNext()) {
                b.append(separator);
            }
        }
        return b.toString();
    }

    public static String valueOf(Object o) {
        return o == null ? "null" : o.toString();
    }

    public static String valueOf(int n) {
        return Integer.toString(n);
    }

    public static String valueOf(long n) {
        return Long.toString(n);
    }

    public static String valueOf(char c) {
        return make(new char[] {c});
    }

    public static String valueOf(boolean b) {
        return b ? "true" : "false";
    }

    public static String valueOf(char[] units) {
        return new String(units);
    }

    public static String valueOf(char[] units, int from, int count) {
        return new String(units, from, count);
    }

    public static String copyValueOf(char[] units) {
        return new String(units);
    }

    public static String copyValueOf(char[] units, int from, int count) {
        return new String(units, from, count);
    }

    public static String format(String format, Object[] arguments) {
        return new Format(format, arguments).text();
    }

    public static String format(java.util.Locale locale, String format, Object[] arguments) {
        return format(format, arguments);
    }

    public String formatted(Object[] arguments) {
        return format(self(), arguments);
    }
}
