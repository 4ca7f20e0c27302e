package jx.raw;

/** Monitors without structure; the tool writes the bodies, one instruction each. */
public final class Mon {
    private Mon() {
    }

    /** Is monitorenter. */
    public static void enter(Object object) {
    }

    /** Is monitorexit. */
    public static void exit(Object object) {
    }
}
