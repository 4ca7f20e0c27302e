package jx.ex;

/** IllegalStateException with a message and a cause. Written by throwables.py. */
public class IllegalStateException extends java.lang.IllegalStateException implements jx.Thrown {
    private String message;
    private java.lang.Throwable cause = this;
    private java.lang.Throwable[] suppressed;

    public IllegalStateException() {
    }

    public IllegalStateException(String message) {
        this.message = message;
    }

    public IllegalStateException(String message, java.lang.Throwable cause) {
        this.message = message;
        this.cause = cause;
    }

    public IllegalStateException(java.lang.Throwable cause) {
        this.message = jx.Throwables.text(cause);
        this.cause = cause;
    }

    protected IllegalStateException(String message, java.lang.Throwable cause, boolean suppression, boolean writable) {
        this(message, cause);
    }

    public String getMessage() {
        return message;
    }

    public String getLocalizedMessage() {
        return getMessage();
    }

    public java.lang.Throwable getCause() {
        return cause == this ? null : cause;
    }

    public java.lang.Throwable initCause(java.lang.Throwable cause) {
        jx.Throwables.checkCause(this, this.cause, cause);
        this.cause = cause;
        return this;
    }

    public java.lang.Throwable[] jxSuppressed() {
        return suppressed;
    }

    public void jxSuppressed(java.lang.Throwable[] suppressed) {
        this.suppressed = suppressed;
    }

    public String toString() {
        return jx.Throwables.describe(this, getLocalizedMessage());
    }

    public void printStackTrace() {
        jx.Throwables.print(this, jx.Sys.err);
    }

    public java.lang.Throwable fillInStackTrace() {
        return this;
    }
}
