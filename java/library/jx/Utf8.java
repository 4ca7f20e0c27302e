package jx;

import java.nio.charset.Charset;

/** UTF-8 and the charsets of one byte, for the bytes of texts. */
final class Utf8 {
    private Utf8() {
    }

    static byte[] encode(char[] units) {
        byte[] bytes = new byte[3 * units.length];
        int n = 0;
        for (int i = 0; i < units.length; i++) {
            int c = units[i];
            if (Character.isHighSurrogate(units[i]) && i + 1 < units.length && Character.isLowSurrogate(units[i + 1])) {
                c = Character.toCodePoint(units[i], units[++i]);
            } else if (Character.isSurrogate(units[i])) {
                c = '?';
            }
            n = put(bytes, n, c);
        }
        byte[] result = new byte[n];
        Sys.arraycopy(bytes, 0, result, 0, n);
        return result;
    }

    /** Returns the bytes in a charset; a unit that it doesn't have becomes a question mark. */
    static byte[] encode(char[] units, Charset charset) {
        if (charset.most() < 0) {
            return encode(units);
        }
        byte[] bytes = new byte[units.length];
        for (int i = 0; i < units.length; i++) {
            bytes[i] = (byte) (units[i] <= charset.most() ? units[i] : '?');
        }
        return bytes;
    }

    /** Returns the units of bytes in a charset. */
    static char[] decode(byte[] bytes, Charset charset) {
        if (charset.most() < 0) {
            return decode(bytes, 0, bytes.length);
        }
        char[] units = new char[bytes.length];
        for (int i = 0; i < units.length; i++) {
            int b = bytes[i] & 255;
            units[i] = (char) (b <= charset.most() ? b : 0xfffd);
        }
        return units;
    }

    private static int put(byte[] bytes, int n, int c) {
        if (c < 0x80) {
            bytes[n++] = (byte) c;
        } else if (c < 0x800) {
            bytes[n++] = (byte) (0xc0 | c >> 6);
            bytes[n++] = (byte) (0x80 | c & 63);
        } else if (c < 0x10000) {
            bytes[n++] = (byte) (0xe0 | c >> 12);
            bytes[n++] = (byte) (0x80 | c >> 6 & 63);
            bytes[n++] = (byte) (0x80 | c & 63);
        } else {
            bytes[n++] = (byte) (0xf0 | c >> 18);
            bytes[n++] = (byte) (0x80 | c >> 12 & 63);
            bytes[n++] = (byte) (0x80 | c >> 6 & 63);
            bytes[n++] = (byte) (0x80 | c & 63);
        }
        return n;
    }

    /** Returns the units of the bytes; a byte that can't be read becomes U+FFFD. */
    static char[] decode(byte[] bytes, int from, int count) {
        StringBuilder b = new StringBuilder();
        int end = from + count;
        int i = from;
        while (i < end) {
            int first = bytes[i++] & 255;
            int more = first < 0x80 ? 0 : first >= 0xf0 ? 3 : first >= 0xe0 ? 2 : first >= 0xc2 ? 1 : -1;
            int c = more <= 0 ? first : first & 0x3f >> more;
            int read = 0;
            while (read < more && i < end && (bytes[i] & 0xc0) == 0x80) {
                c = c << 6 | bytes[i++] & 63;
                read++;
            }
            b.appendCodePoint(more < 0 || read < more ? 0xfffd : c);
        }
        return Str.units(b.toString());
    }
}
