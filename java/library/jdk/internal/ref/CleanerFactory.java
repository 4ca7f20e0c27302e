package jdk.internal.ref;

import java.lang.ref.Cleaner;

/** The cleaner of the JDK's classes. */
public final class CleanerFactory {
    private CleanerFactory() {
    }

    public static Cleaner cleaner() {
        return Cleaner.create();
    }
}
