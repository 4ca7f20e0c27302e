package java.lang;

/** A group of threads, of which only the name and the parent are kept. */
public class ThreadGroup {
    private static ThreadGroup main;

    private final String name;
    private final ThreadGroup parent;

    public ThreadGroup(String name) {
        this(main(), name);
    }

    public ThreadGroup(ThreadGroup parent, String name) {
        this.parent = parent;
        this.name = name;
    }

    /** Returns the group of the first thread. */
    public static synchronized ThreadGroup main() {
        if (main == null) {
            main = new ThreadGroup(new ThreadGroup(null, "system"), "main");
        }
        return main;
    }

    public final String getName() {
        return name;
    }

    public final ThreadGroup getParent() {
        return parent;
    }

    public final int getMaxPriority() {
        return 10;
    }

    public final boolean parentOf(ThreadGroup group) {
        for (ThreadGroup g = group; g != null; g = g.parent) {
            if (g == this) {
                return true;
            }
        }
        return false;
    }

    public final void checkAccess() {
    }

    @Override
    public String toString() {
        return "java.lang.ThreadGroup[name=" + name + ",maxpri=10]";
    }
}
