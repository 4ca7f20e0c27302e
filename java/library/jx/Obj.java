package jx;

/** The methods of Object, called where the compiled code names no class that declares them. */
public final class Obj {
    private static int lastIdentity;

    private Obj() {
    }

    public static int hashCode(Object o) {
        return o instanceof HasHash ? ((HasHash) o).hashCode() : identity(present(o));
    }

    public static boolean equals(Object o, Object other) {
        return o instanceof HasEquals ? ((HasEquals) o).equals(other) : present(o) == other;
    }

    public static String toString(Object o) {
        if (o instanceof HasString) {
            return ((HasString) o).toString();
        }
        if (o instanceof Throwable) {
            return Throwables.toString((Throwable) o);
        }
        return o instanceof Class ? Classes.toString((Class) o) : defaultToString(present(o));
    }

    private static Object present(Object o) {
        if (o == null) {
            throw new NullPointerException();
        }
        return o;
    }

    /** Returns Object's hash code. */
    public static int identity(Object o) {
        int id = jx.raw.N.id(o);
        if (id != 0) {
            return id;
        }
        return o instanceof HasId ? own((HasId) o) : 0;
    }

    private static int own(HasId o) {
        int id = o.jxId(0);
        if (id == 0) {
            synchronized (Obj.class) {
                id = o.jxId(0);
                if (id == 0) {
                    id = o.jxId(++lastIdentity);
                }
            }
        }
        return id;
    }

    public static String defaultToString(Object o) {
        return Classes.getName(getClass(o)) + "@" + Integer.toHexString(hashCode(o));
    }

    public static Class getClass(Object o) {
        if (o instanceof HasClass) {
            return ((HasClass) o).jxClass();
        }
        if (o instanceof Throwable) {
            return Classes.ofThrowable((Throwable) o);
        }
        return Classes.ofOther(present(o));
    }

    /** Is Object.wait(). */
    public static void await(Object o) throws InterruptedException {
        Parking.await(o, 0L);
    }

    /** Is Object.wait(long). */
    public static void await(Object o, long milliseconds) throws InterruptedException {
        if (milliseconds < 0) {
            throw new IllegalArgumentException("timeout value is negative");
        }
        Parking.await(o, Clock.nanos(milliseconds));
    }

    /** Is Object.wait(long, int). */
    public static void await(Object o, long milliseconds, int nanos) throws InterruptedException {
        await(o, nanos > 0 ? milliseconds + 1 : milliseconds);
    }

    /** Is Object.notify(). */
    public static void wake(Object o) {
        Parking.wake(o, false);
    }

    /** Is Object.notifyAll(). */
    public static void wakeAll(Object o) {
        Parking.wake(o, true);
    }

    /** Returns whether the running thread owns the object's monitor. */
    public static boolean holds(Object o) {
        return jx.raw.Wait.holds(present(o));
    }
}
