package jdk.internal.misc;

/** What the JDK's classes ask of the virtual machine. */
public final class VM {
    private VM() {
    }

    public static String getSavedProperty(String name) {
        return null;
    }

    public static boolean isBooted() {
        return true;
    }

    public static long maxDirectMemory() {
        return 0;
    }
}
