package java.util;

/** A check of the JDK's streams, which is off. */
final class Tripwire {
    static final boolean ENABLED = false;

    private Tripwire() {
    }

    static void trip(Class<?> c, String message) {
    }
}
