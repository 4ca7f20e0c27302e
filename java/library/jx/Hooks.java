package jx;

/** The threads that run when the program ends. */
public final class Hooks {
    private static final Object[] NONE = new Object[0];
    private static java.util.ArrayList all;

    private Hooks() {
    }

    public static synchronized void add(Object hook) {
        if (all == null) {
            all = new java.util.ArrayList();
        }
        all.add(hook);
    }

    public static synchronized boolean remove(Object hook) {
        return all != null && all.remove(hook);
    }

    public static synchronized void forget() {
        all = null;
    }

    /** Starts the hooks, once, and returns them. */
    static synchronized Object[] start() {
        if (all == null) {
            return NONE;
        }
        Object[] hooks = all.toArray();
        all = null;
        for (int i = 0; i < hooks.length; i++) {
            ((Thr) hooks[i]).start();
        }
        return hooks;
    }
}
