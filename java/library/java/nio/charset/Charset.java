package java.nio.charset;

/** One of the charsets that programs name. */
public final class Charset implements Comparable<Charset> {
    private final String name;
    /** The largest unit that it has in one byte, or -1 for UTF-8. */
    private final int most;

    Charset(String name, int most) {
        this.name = name;
        this.most = most;
    }

    public static Charset forName(String name) {
        if (name.equalsIgnoreCase("UTF-8") || name.equalsIgnoreCase("UTF8")) {
            return StandardCharsets.UTF_8;
        }
        if (name.equalsIgnoreCase("US-ASCII") || name.equalsIgnoreCase("ASCII")) {
            return StandardCharsets.US_ASCII;
        }
        if (name.equalsIgnoreCase("ISO-8859-1") || name.equalsIgnoreCase("LATIN1")) {
            return StandardCharsets.ISO_8859_1;
        }
        throw new UnsupportedOperationException("the charset " + name);
    }

    public static Charset defaultCharset() {
        return StandardCharsets.UTF_8;
    }

    public String name() {
        return name;
    }

    /** Returns the largest unit that it has in one byte, or -1 for UTF-8. */
    public int most() {
        return most;
    }

    @Override
    public int compareTo(Charset other) {
        return name.compareToIgnoreCase(other.name);
    }

    @Override
    public String toString() {
        return name;
    }
}
