package jvmx.tool;

/** Says how a program is to be adapted. */
final class Settings {
    /** The class with the main method. */
    final String main;
    final boolean hasAssertions;

    /** Whether the machine has the natives of jvmx/Native. */
    final boolean hasNatives;

    /** Whether the schedule stays with a thread while it can go on. */
    final boolean isStaying;

    Settings(String main, boolean hasAssertions, boolean hasNatives, boolean isStaying) {
        this.main = main;
        this.isStaying = isStaying;
        this.hasAssertions = hasAssertions;
        this.hasNatives = hasNatives;
    }
}
