package jx.gen;

/** What the tool knows of the program; it writes the bodies. */
public final class Settings {
    private Settings() {
    }

    /** Returns whether assertions are on. */
    public static boolean assertions() {
        return false;
    }

    /** Returns whether the program waits for times, interrupts, has daemons or calls exit. */
    public static boolean parks() {
        return true;
    }

    /** Returns whether threads may be blocked, or loop until another thread does something, where the library doesn't see it. */
    public static boolean hasUnseenThreads() {
        return false;
    }

    /** Returns whether the program may try a lock, beside taking it. */
    public static boolean triesLocks() {
        return true;
    }

    /** Returns whether the schedule stays with a thread while it can go on. */
    public static boolean stays() {
        return false;
    }
}
