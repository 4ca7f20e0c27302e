package jx;

/** The System of rewritten programs. */
public final class Sys {
    public static Out out = new Out(false);
    public static Out err = new Out(true);

    private Sys() {
    }

    public static void setOut(Out to) {
        out = to;
    }

    public static void setErr(Out to) {
        err = to;
    }

    public static long nanoTime() {
        return Clock.read();
    }

    public static long currentTimeMillis() {
        return Clock.readMillis();
    }

    public static int identityHashCode(Object o) {
        return o == null ? 0 : Obj.identity(o);
    }

    public static void arraycopy(Object from, int at, Object to, int into, int count) {
        Arr.copy(from, at, to, into, count);
    }

    public static String lineSeparator() {
        return "\n";
    }

    /** Returns the property, of those that programs ask for and that stay the same everywhere. */
    public static String getProperty(String name) {
        if (name.equals("line.separator")) {
            return "\n";
        }
        if (name.equals("file.separator")) {
            return "/";
        }
        if (name.equals("path.separator")) {
            return ":";
        }
        return name.equals("java.vendor") || name.equals("java.vm.name") ? "jvmx" : name.equals("java.version") ? "1.8.0" : null;
    }

    public static String getProperty(String name, String otherwise) {
        String value = getProperty(name);
        return value == null ? otherwise : value;
    }

    public static String getenv(String name) {
        return null;
    }

    public static SecurityManager getSecurityManager() {
        return null;
    }

    public static void gc() {
    }

    public static void runFinalization() {
    }

    public static void exit(int status) {
        Thr.exit();
    }
}
