#!/usr/bin/env python3
"""Writes jx/ex: for each throwable that the machine has, a subclass with message, cause and suppressed ones."""
import pathlib

NAMES = """Throwable Exception Error RuntimeException InterruptedException ArithmeticException ArrayStoreException ClassCastException
IllegalMonitorStateException IllegalArgumentException IllegalStateException IndexOutOfBoundsException NegativeArraySizeException
NullPointerException ArrayIndexOutOfBoundsException IllegalThreadStateException LinkageError VirtualMachineError NoClassDefFoundError
IncompatibleClassChangeError UnsatisfiedLinkError ExceptionInInitializerError AbstractMethodError InstantiationError NoSuchFieldError
NoSuchMethodError OutOfMemoryError StackOverflowError""".split()
# The texts before an index, of the two classes that have such a constructor.
INDEXED = {"IndexOutOfBoundsException": "Index", "ArrayIndexOutOfBoundsException": "Array index"}

CLASS = """package jx.ex;

/** {name} with a message and a cause. Written by throwables.py. */
public class {name} extends java.lang.{name} implements jx.Thrown {{
    private String message;
    private java.lang.Throwable cause = this;
    private java.lang.Throwable[] suppressed;

    public {name}() {{
    }}

    public {name}(String message) {{
        this.message = message;
    }}

    public {name}(String message, java.lang.Throwable cause) {{
        this.message = message;
        this.cause = cause;
    }}

    public {name}(java.lang.Throwable cause) {{
        this.message = jx.Throwables.text(cause);
        this.cause = cause;
    }}

    protected {name}(String message, java.lang.Throwable cause, boolean suppression, boolean writable) {{
        this(message, cause);
    }}
{indexed}
    public String getMessage() {{
        return message;
    }}

    public String getLocalizedMessage() {{
        return getMessage();
    }}

    public java.lang.Throwable getCause() {{
        return cause == this ? null : cause;
    }}

    public java.lang.Throwable initCause(java.lang.Throwable cause) {{
        jx.Throwables.checkCause(this, this.cause, cause);
        this.cause = cause;
        return this;
    }}

    public java.lang.Throwable[] jxSuppressed() {{
        return suppressed;
    }}

    public void jxSuppressed(java.lang.Throwable[] suppressed) {{
        this.suppressed = suppressed;
    }}

    public String toString() {{
        return jx.Throwables.describe(this, getLocalizedMessage());
    }}

    public void printStackTrace() {{
        jx.Throwables.print(this, jx.Sys.err);
    }}

    public java.lang.Throwable fillInStackTrace() {{
        return this;
    }}
}}
"""

WITH_INDEX = """
    public {name}(int index) {{
        this.message = "{text} out of range: " + index;
    }}
"""

folder = pathlib.Path(__file__).parent / "jx" / "ex"
for name in NAMES:
    indexed = WITH_INDEX.format(name=name, text=INDEXED[name]) if name in INDEXED else ""
    (folder / (name + ".java")).write_text(CLASS.format(name=name, indexed=indexed))
