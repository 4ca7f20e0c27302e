package java.lang;

/** What programs ask of the virtual machine. */
public class Runtime {
    private static final Runtime ONE = new Runtime();

    private Runtime() {
    }

    public static Runtime getRuntime() {
        return ONE;
    }

    /** Returns 4, on every machine. */
    public int availableProcessors() {
        return 4;
    }

    public long freeMemory() {
        return 64L << 20;
    }

    public long totalMemory() {
        return 128L << 20;
    }

    public long maxMemory() {
        return 1L << 30;
    }

    public void gc() {
    }

    public void addShutdownHook(Thread hook) {
        jx.Hooks.add(hook);
    }

    public boolean removeShutdownHook(Thread hook) {
        return jx.Hooks.remove(hook);
    }

    public void exit(int status) {
        System.exit(status);
    }

    public void halt(int status) {
        jx.Hooks.forget();
        System.exit(status);
    }
}
