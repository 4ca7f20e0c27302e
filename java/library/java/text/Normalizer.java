package java.text;

/** The canonical forms of texts, which aren't there. */
public final class Normalizer {
    private Normalizer() {
    }

    /** Is Normalizer.Form. */
    public enum Form { NFD, NFC, NFKD, NFKC }

    public static String normalize(CharSequence s, Form form) {
        throw new UnsupportedOperationException("java.text.Normalizer");
    }

    public static boolean isNormalized(CharSequence s, Form form) {
        throw new UnsupportedOperationException("java.text.Normalizer");
    }
}
