package java.lang;

import java.util.stream.IntStream;

/** A sequence of units that grows, each call of which holds its monitor. */
public final class StringBuffer implements CharSequence, Appendable, java.io.Serializable, Comparable<StringBuffer> {
    private final StringBuilder builder;

    public StringBuffer() {
        builder = new StringBuilder();
    }

    public StringBuffer(int capacity) {
        builder = new StringBuilder(capacity);
    }

    public StringBuffer(String s) {
        builder = new StringBuilder(s);
    }

    public StringBuffer(CharSequence s) {
        builder = new StringBuilder(s);
    }

    public synchronized void ensureCapacity(int capacity) {
        builder.ensureCapacity(capacity);
    }

    public synchronized int capacity() {
        return builder.capacity();
    }

    public synchronized void trimToSize() {
        builder.trimToSize();
    }

    public synchronized void setLength(int length) {
        builder.setLength(length);
    }

    public synchronized StringBuffer append(String s) {
        builder.append(s);
        return this;
    }

    public synchronized StringBuffer append(Object o) {
        builder.append(o);
        return this;
    }

    public synchronized StringBuffer append(CharSequence s) {
        builder.append(s);
        return this;
    }

    public synchronized StringBuffer append(CharSequence s, int from, int to) {
        builder.append(s, from, to);
        return this;
    }

    public synchronized StringBuffer append(StringBuffer s) {
        builder.append(s);
        return this;
    }

    public synchronized StringBuffer append(char c) {
        builder.append(c);
        return this;
    }

    public synchronized StringBuffer append(char[] s) {
        builder.append(s);
        return this;
    }

    public synchronized StringBuffer append(char[] s, int from, int length) {
        builder.append(s, from, length);
        return this;
    }

    public synchronized StringBuffer append(int n) {
        builder.append(n);
        return this;
    }

    public synchronized StringBuffer append(long n) {
        builder.append(n);
        return this;
    }

    public synchronized StringBuffer append(boolean b) {
        builder.append(b);
        return this;
    }

    public synchronized StringBuffer appendCodePoint(int point) {
        builder.appendCodePoint(point);
        return this;
    }

    public synchronized StringBuffer insert(int at, String s) {
        builder.insert(at, s);
        return this;
    }

    public synchronized StringBuffer insert(int at, Object o) {
        builder.insert(at, o);
        return this;
    }

    public synchronized StringBuffer insert(int at, CharSequence s) {
        builder.insert(at, s);
        return this;
    }

    public synchronized StringBuffer insert(int at, CharSequence s, int from, int to) {
        builder.insert(at, s, from, to);
        return this;
    }

    public synchronized StringBuffer insert(int at, char[] s) {
        builder.insert(at, s);
        return this;
    }

    public synchronized StringBuffer insert(int at, char[] s, int from, int length) {
        builder.insert(at, s, from, length);
        return this;
    }

    public synchronized StringBuffer insert(int at, char c) {
        builder.insert(at, c);
        return this;
    }

    public synchronized StringBuffer insert(int at, int n) {
        builder.insert(at, n);
        return this;
    }

    public synchronized StringBuffer insert(int at, long n) {
        builder.insert(at, n);
        return this;
    }

    public synchronized StringBuffer insert(int at, boolean b) {
        builder.insert(at, b);
        return this;
    }

    public synchronized StringBuffer delete(int from, int to) {
        builder.delete(from, to);
        return this;
    }

    public synchronized StringBuffer deleteCharAt(int index) {
        builder.deleteCharAt(index);
        return this;
    }

    public synchronized StringBuffer replace(int from, int to, String s) {
        builder.replace(from, to, s);
        return this;
    }

    public synchronized StringBuffer repeat(CharSequence s, int times) {
        builder.repeat(s, times);
        return this;
    }

    public synchronized StringBuffer reverse() {
        builder.reverse();
        return this;
    }

    public synchronized int length() {
        return builder.length();
    }

    public synchronized char charAt(int index) {
        return builder.charAt(index);
    }

    public synchronized void setCharAt(int index, char c) {
        builder.setCharAt(index, c);
    }

    public synchronized int codePointAt(int index) {
        return builder.codePointAt(index);
    }

    public synchronized int codePointBefore(int index) {
        return builder.codePointBefore(index);
    }

    public synchronized int codePointCount(int from, int to) {
        return builder.codePointCount(from, to);
    }

    public synchronized int offsetByCodePoints(int index, int offset) {
        return builder.offsetByCodePoints(index, offset);
    }

    public synchronized void getChars(int from, int to, char[] target, int at) {
        builder.getChars(from, to, target, at);
    }

    public synchronized IntStream chars() {
        return builder.chars();
    }

    public synchronized IntStream codePoints() {
        return builder.codePoints();
    }

    public synchronized int indexOf(String s) {
        return builder.indexOf(s);
    }

    public synchronized int indexOf(String s, int from) {
        return builder.indexOf(s, from);
    }

    public synchronized int lastIndexOf(String s) {
        return builder.lastIndexOf(s);
    }

    public synchronized int lastIndexOf(String s, int from) {
        return builder.lastIndexOf(s, from);
    }

    public synchronized String substring(int from) {
        return builder.substring(from);
    }

    public synchronized String substring(int from, int to) {
        return builder.substring(from, to);
    }

    public synchronized CharSequence subSequence(int from, int to) {
        return builder.subSequence(from, to);
    }

    @Override
    public int compareTo(StringBuffer other) {
        return toString().compareTo(other.toString());
    }

    @Override
    public synchronized String toString() {
        return builder.toString();
    }
}
