package jx;

/** What a throwable of the library has beside the machine's. */
public interface Thrown {
    String getMessage();

    String getLocalizedMessage();

    Throwable getCause();

    Throwable initCause(Throwable cause);

    String toString();

    void printStackTrace();

    Throwable fillInStackTrace();

    /** Returns the suppressed throwables, or null. */
    Throwable[] jxSuppressed();

    /** Sets the suppressed throwables. */
    void jxSuppressed(Throwable[] suppressed);
}
