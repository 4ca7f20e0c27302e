package sun.text;

/** The combining classes of characters, which aren't there. */
public final class Normalizer {
    private Normalizer() {
    }

    public static int getCombiningClass(int point) {
        throw new UnsupportedOperationException("java.text.Normalizer");
    }
}
