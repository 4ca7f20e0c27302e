package jx;

/** The methods of Throwable, for those of the library and for those that the machine throws. */
public final class Throwables {
    private Throwables() {
    }

    public static String getMessage(Throwable t) {
        return t instanceof Thrown ? ((Thrown) t).getMessage() : ofMachine(t);
    }

    public static String getLocalizedMessage(Throwable t) {
        return t instanceof Thrown ? ((Thrown) t).getLocalizedMessage() : ofMachine(t);
    }

    public static Throwable getCause(Throwable t) {
        return t instanceof Thrown ? ((Thrown) t).getCause() : null;
    }

    public static Throwable initCause(Throwable t, Throwable cause) {
        if (t instanceof Thrown) {
            ((Thrown) t).initCause(cause);
        }
        return t;
    }

    public static String toString(Throwable t) {
        return t instanceof Thrown ? ((Thrown) t).toString() : describe(t, ofMachine(t));
    }

    public static void printStackTrace(Throwable t) {
        if (t instanceof Thrown) {
            ((Thrown) t).printStackTrace();
        } else {
            print(t, Sys.err);
        }
    }

    public static void printStackTrace(Throwable t, Out out) {
        print(t, out);
    }

    public static void addSuppressed(Throwable t, Throwable s) {
        if (s == t) {
            throw new IllegalArgumentException("Self-suppression not permitted", s);
        }
        if (s == null) {
            throw new NullPointerException("Cannot suppress a null exception.");
        }
        if (t instanceof Thrown) {
            Throwable[] old = getSuppressed(t);
            Throwable[] all = new Throwable[old.length + 1];
            for (int i = 0; i < old.length; i++) {
                all[i] = old[i];
            }
            all[old.length] = s;
            ((Thrown) t).jxSuppressed(all);
        }
    }

    public static Throwable[] getSuppressed(Throwable t) {
        Throwable[] s = t instanceof Thrown ? ((Thrown) t).jxSuppressed() : null;
        return s == null ? new Throwable[0] : s;
    }

    /** Returns no element: the machine doesn't show its frames to a program. */
    public static StackTraceElement[] getStackTrace(Throwable t) {
        return new StackTraceElement[0];
    }

    public static void setStackTrace(Throwable t, StackTraceElement[] trace) {
    }

    public static Throwable fillInStackTrace(Throwable t) {
        return t instanceof Thrown ? ((Thrown) t).fillInStackTrace() : t;
    }

    /** Prints the throwable, what it suppressed and its causes. */
    public static void print(Throwable t, Out out) {
        out.println(toString(t));
        printRest(t, out, "");
    }

    private static void printRest(Throwable t, Out out, String indent) {
        Throwable[] suppressed = getSuppressed(t);
        for (int i = 0; i < suppressed.length; i++) {
            out.println(indent + "\tSuppressed: " + toString(suppressed[i]));
            printRest(suppressed[i], out, indent + "\t");
        }
        Throwable cause = getCause(t);
        if (cause != null) {
            out.println(indent + "Caused by: " + toString(cause));
            printRest(cause, out, indent);
        }
    }

    /** Returns the text of a throwable with this message. */
    public static String describe(Throwable t, String message) {
        String name = Classes.getName(Obj.getClass(t));
        return message == null ? name : name + ": " + message;
    }

    /** Returns the message that a throwable has from its cause alone. */
    public static String text(Throwable cause) {
        return cause == null ? null : toString(cause);
    }

    /** Throws as initCause does where the cause is set already, or is the throwable itself. */
    public static void checkCause(Throwable t, Throwable old, Throwable cause) {
        if (old != t) {
            throw new IllegalStateException("Can't overwrite cause with " + (cause == null ? "a null" : toString(cause)), t);
        }
        if (cause == t) {
            throw new IllegalArgumentException("Self-causation not permitted", t);
        }
    }

    /** Returns the message of a throwable that the machine made. */
    private static String ofMachine(Throwable t) {
        return t instanceof ArithmeticException ? "/ by zero" : null;
    }
}
