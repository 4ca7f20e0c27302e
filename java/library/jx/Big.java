package jx;

import java.math.BigInteger;

/** Big numbers as texts, without the logarithms of the JDK's way. */
public final class Big {
    private Big() {
    }

    /** Is BigInteger.toString(int): takes off groups of digits that fit into a long. */
    public static String toString(BigInteger n, int radix) {
        if (radix < Character.MIN_RADIX || radix > Character.MAX_RADIX) {
            radix = 10;
        }
        if (n.bitLength() < 64) {
            return Long.toString(n.longValue(), radix);
        }
        int digits = 12;
        BigInteger group = BigInteger.valueOf(radix).pow(digits);
        StringBuilder b = new StringBuilder();
        for (BigInteger rest = n.abs(); rest.signum() > 0;) {
            BigInteger[] parts = rest.divideAndRemainder(group);
            rest = parts[0];
            appendReversed(b, parts[1].longValue(), radix, rest.signum() > 0 ? digits : 0);
        }
        return (n.signum() < 0 ? b.append('-') : b).reverse().toString();
    }

    private static void appendReversed(StringBuilder b, long n, int radix, int least) {
        int written = 0;
        while (n > 0 || written < least) {
            b.append(Character.forDigit((int) (n % radix), radix));
            n /= radix;
            written++;
        }
    }
}
