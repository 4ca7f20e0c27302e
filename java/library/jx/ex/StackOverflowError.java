package jx.ex;

/** StackOverflowError with a message and a cause. Written by throwables.py. */
public class StackOverflowError extends java.lang.StackOverflowError implements jx.Thrown {
    private String message;
    private java.lang.Throwable cause = this;
    private java.lang.Throwable[] suppressed;

    public StackOverflowError() {
    }

    public StackOverflowError(String message) {
        this.message = message;
    }

    public StackOverflowError(String message, java.lang.Throwable cause) {
        this.message = message;
        this.cause = cause;
    }

    public StackOverflowError(java.lang.Throwable cause) {
        this.message = jx.Throwables.text(cause);
        this.cause = cause;
    }

    protected StackOverflowError(String message, java.lang.Throwable cause, boolean suppression, boolean writable) {
        this(message, cause);
    }

    public String getMessage() {
        return message;
    }

    public String getLocalizedMessage() {
        return getMessage();
    }

    public java.lang.Throwable getCause() {
        return cause == this ? null : cause;
    }

    public java.lang.Throwable initCause(java.lang.Throwable cause) {
        jx.Throwables.checkCause(this, this.cause, cause);
        this.cause = cause;
        return this;
    }

    public java.lang.Throwable[] jxSuppressed() {
        return suppressed;
    }

    public void jxSuppressed(java.lang.Throwable[] suppressed) {
        this.suppressed = suppressed;
    }

    public String toString() {
        return jx.Throwables.describe(this, getLocalizedMessage());
    }

    public void printStackTrace() {
        jx.Throwables.print(this, jx.Sys.err);
    }

    public java.lang.Throwable fillInStackTrace() {
        return this;
    }
}
