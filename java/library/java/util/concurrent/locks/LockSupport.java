package java.util.concurrent.locks;

/** Parks and unparks threads. */
public class LockSupport {
    private LockSupport() {
    }

    public static void park() {
        jx.Parker.park();
    }

    public static void park(Object blocker) {
        jx.Parker.park();
    }

    public static void parkNanos(long nanos) {
        if (nanos > 0) {
            jx.Parker.parkNanos(nanos);
        }
    }

    public static void parkNanos(Object blocker, long nanos) {
        parkNanos(nanos);
    }

    public static void parkUntil(long deadline) {
        parkNanos((deadline - System.currentTimeMillis()) * 1000000L);
    }

    public static void parkUntil(Object blocker, long deadline) {
        parkUntil(deadline);
    }

    public static void unpark(Thread thread) {
        if (thread != null) {
            jx.Parker.unpark(thread);
        }
    }

    public static Object getBlocker(Thread thread) {
        return null;
    }

    public static void setCurrentBlocker(Object blocker) {
    }

    static long getThreadId(Thread thread) {
        return thread.getId();
    }
}
