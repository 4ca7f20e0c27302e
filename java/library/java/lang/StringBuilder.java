package java.lang;

import java.util.stream.IntStream;

/** A sequence of units that grows. */
public final class StringBuilder implements CharSequence, Appendable, java.io.Serializable, Comparable<StringBuilder> {
    private char[] units;
    private int count;

    public StringBuilder() {
        units = new char[16];
    }

    public StringBuilder(int capacity) {
        if (capacity < 0) {
            throw new NegativeArraySizeException(String.valueOf(capacity));
        }
        units = new char[capacity];
    }

    public StringBuilder(String s) {
        units = new char[s.length() + 16];
        append(s);
    }

    public StringBuilder(CharSequence s) {
        this(s.toString());
    }

    // ---- room

    private void ensure(int needed) {
        if (needed > units.length) {
            char[] more = new char[Math.max(needed, 2 * units.length + 2)];
            System.arraycopy(units, 0, more, 0, count);
            units = more;
        }
    }

    public void ensureCapacity(int capacity) {
        ensure(capacity);
    }

    public int capacity() {
        return units.length;
    }

    public void trimToSize() {
        units = toCharArray();
    }

    public void setLength(int length) {
        if (length < 0) {
            throw new StringIndexOutOfBoundsException(length);
        }
        ensure(length);
        for (int i = count; i < length; i++) {
            units[i] = 0;
        }
        count = length;
    }

    // ---- append

    public StringBuilder append(String s) {
        if (s == null) {
            return append("null");
        }
        int length = s.length();
        ensure(count + length);
        s.getChars(0, length, units, count);
        count += length;
        return this;
    }

    public StringBuilder append(Object o) {
        return append(String.valueOf(o));
    }

    public StringBuilder append(CharSequence s) {
        return append(String.valueOf(s));
    }

    public StringBuilder append(CharSequence s, int from, int to) {
        String all = String.valueOf(s);
        checkPart(from, to, all.length());
        return append(all.substring(from, to));
    }

    public StringBuilder append(StringBuffer s) {
        return append(String.valueOf(s));
    }

    public StringBuilder append(char c) {
        ensure(count + 1);
        units[count++] = c;
        return this;
    }

    public StringBuilder append(char[] s) {
        return append(s, 0, s.length);
    }

    public StringBuilder append(char[] s, int from, int length) {
        checkPart(from, from + length, s.length);
        ensure(count + length);
        System.arraycopy(s, from, units, count, length);
        count += length;
        return this;
    }

    public StringBuilder append(int n) {
        return n >= 0 && n < 10 ? append((char) ('0' + n)) : append(Integer.toString(n));
    }

    public StringBuilder append(long n) {
        return append(Long.toString(n));
    }

    public StringBuilder append(boolean b) {
        return append(b ? "true" : "false");
    }

    public StringBuilder appendCodePoint(int point) {
        if (point >= 0 && point < 0x10000) {
            return append((char) point);
        }
        return append(Character.toChars(point));
    }

    // ---- insert, delete, replace

    private StringBuilder splice(int from, int to, String s) {
        int length = s.length();
        int grown = count - (to - from) + length;
        ensure(grown);
        System.arraycopy(units, to, units, from + length, count - to);
        s.getChars(0, length, units, from);
        count = grown;
        return this;
    }

    private void checkOffset(int at) {
        if (at < 0 || at > count) {
            throw new StringIndexOutOfBoundsException("offset " + at + ", length " + count);
        }
    }

    public StringBuilder insert(int at, String s) {
        checkOffset(at);
        return splice(at, at, s == null ? "null" : s);
    }

    public StringBuilder insert(int at, Object o) {
        return insert(at, String.valueOf(o));
    }

    public StringBuilder insert(int at, CharSequence s) {
        return insert(at, String.valueOf(s));
    }

    public StringBuilder insert(int at, CharSequence s, int from, int to) {
        String all = String.valueOf(s);
        checkOffset(at);
        checkPart(from, to, all.length());
        return insert(at, all.substring(from, to));
    }

    public StringBuilder insert(int at, char[] s) {
        return insert(at, String.valueOf(s));
    }

    public StringBuilder insert(int at, char[] s, int from, int length) {
        return insert(at, new String(s, from, length));
    }

    public StringBuilder insert(int at, char c) {
        return insert(at, String.valueOf(c));
    }

    public StringBuilder insert(int at, int n) {
        return insert(at, String.valueOf(n));
    }

    public StringBuilder insert(int at, long n) {
        return insert(at, String.valueOf(n));
    }

    public StringBuilder insert(int at, boolean b) {
        return insert(at, String.valueOf(b));
    }

    public StringBuilder delete(int from, int to) {
        int end = Math.min(to, count);
        checkRange(from, end);
        return splice(from, end, "");
    }

    private void checkRange(int from, int to) {
        if (from < 0 || from > to || to > count) {
            throw new StringIndexOutOfBoundsException("start " + from + ", end " + to + ", length " + count);
        }
    }

    public StringBuilder deleteCharAt(int index) {
        checkIndex(index);
        return splice(index, index + 1, "");
    }

    public StringBuilder replace(int from, int to, String s) {
        int end = Math.min(to, count);
        checkRange(from, end);
        return splice(from, end, s);
    }

    public StringBuilder repeat(CharSequence s, int times) {
        return append(String.valueOf(s).repeat(times));
    }

    public StringBuilder reverse() {
        boolean pairs = false;
        for (int i = 0, j = count - 1; i <= j; i++, j--) {
            char c = units[i];
            units[i] = units[j];
            units[j] = c;
            pairs |= c >= 0xd800 && c < 0xe000 || units[i] >= 0xd800 && units[i] < 0xe000;
        }
        if (pairs) {
            restorePairs();
        }
        return this;
    }

    /** Puts the halves of pairs in order again after a reversal. */
    private void restorePairs() {
        for (int i = 0; i + 1 < count; i++) {
            if (Character.isLowSurrogate(units[i]) && Character.isHighSurrogate(units[i + 1])) {
                char low = units[i];
                units[i] = units[i + 1];
                units[++i] = low;
            }
        }
    }

    // ---- look

    private void checkIndex(int index) {
        if (index < 0 || index >= count) {
            throw new StringIndexOutOfBoundsException("index " + index + ", length " + count);
        }
    }

    private static void checkPart(int from, int to, int length) {
        if (from < 0 || from > to || to > length) {
            throw new IndexOutOfBoundsException("start " + from + ", end " + to + ", length " + length);
        }
    }

    public int length() {
        return count;
    }

    public char charAt(int index) {
        checkIndex(index);
        return units[index];
    }

    public void setCharAt(int index, char c) {
        checkIndex(index);
        units[index] = c;
    }

    public int codePointAt(int index) {
        checkIndex(index);
        return Character.codePointAt(units, index, count);
    }

    public int codePointBefore(int index) {
        return toString().codePointBefore(index);
    }

    public int codePointCount(int from, int to) {
        return toString().codePointCount(from, to);
    }

    public int offsetByCodePoints(int index, int offset) {
        return toString().offsetByCodePoints(index, offset);
    }

    public void getChars(int from, int to, char[] target, int at) {
        checkRange(from, to);
        checkPart(at, at + to - from, target.length);
        System.arraycopy(units, from, target, at, to - from);
    }

    public IntStream chars() {
        return toString().chars();
    }

    public IntStream codePoints() {
        return toString().codePoints();
    }

    public int indexOf(String s) {
        return toString().indexOf(s);
    }

    public int indexOf(String s, int from) {
        return toString().indexOf(s, from);
    }

    public int lastIndexOf(String s) {
        return toString().lastIndexOf(s);
    }

    public int lastIndexOf(String s, int from) {
        return toString().lastIndexOf(s, from);
    }

    public String substring(int from) {
        return substring(from, count);
    }

    public String substring(int from, int to) {
        checkRange(from, to);
        return new String(units, from, to - from);
    }

    public CharSequence subSequence(int from, int to) {
        return substring(from, to);
    }

    private char[] toCharArray() {
        char[] copy = new char[count];
        System.arraycopy(units, 0, copy, 0, count);
        return copy;
    }

    @Override
    public int compareTo(StringBuilder other) {
        return toString().compareTo(other.toString());
    }

    @Override
    public String toString() {
        return new String(units, 0, count);
    }
}
