package java.lang;

public final class System {
    public static final java.io.PrintStream out = null;

    private System() {}
}
