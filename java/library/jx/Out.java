package jx;

import java.io.IOException;
import java.io.OutputStream;

/** The PrintStream of rewritten programs: standard output, standard error, or a stream of bytes. */
public class Out extends OutputStream {
    private static final Object GUARD = new Object();

    private final boolean error;
    private final OutputStream target;

    Out(boolean error) {
        this.error = error;
        this.target = null;
    }

    public Out(OutputStream target) {
        this.error = false;
        this.target = target;
    }

    public Out(OutputStream target, boolean flush) {
        this(target);
    }

    public Out(OutputStream target, boolean flush, String charset) {
        this(target);
    }

    // ---- texts

    public void print(String s) {
        synchronized (GUARD) {
            write(s);
        }
    }

    public void println(String s) {
        synchronized (GUARD) {
            write(s);
            unit('\n');
        }
    }

    private void write(String s) {
        Str text = (Str) (Object) (s == null ? "null" : s);
        if (target != null) {
            bytes(Utf8.encode(text.value));
        } else if (text.raw != null && !error) {
            jx.raw.Out.text(text.raw);
        } else {
            char[] units = text.value;
            for (int i = 0; i < units.length; i++) {
                jx.raw.Out.unit(units[i], error);
            }
        }
    }

    private void unit(char c) {
        if (target != null) {
            bytes(Utf8.encode(new char[] {c}));
        } else {
            jx.raw.Out.unit(c, error);
        }
    }

    private void number(int n) {
        if (target == null && !error) {
            jx.raw.Out.number(n);
        } else {
            write(Integer.toString(n));
        }
    }

    private void number(long n) {
        if (target == null && !error) {
            jx.raw.Out.number(n);
        } else {
            write(Long.toString(n));
        }
    }

    public void println() {
        synchronized (GUARD) {
            unit('\n');
        }
    }

    // ---- values

    public void print(int n) {
        synchronized (GUARD) {
            number(n);
        }
    }

    public void println(int n) {
        synchronized (GUARD) {
            number(n);
            unit('\n');
        }
    }

    public void print(long n) {
        synchronized (GUARD) {
            number(n);
        }
    }

    public void println(long n) {
        synchronized (GUARD) {
            number(n);
            unit('\n');
        }
    }

    public void print(char c) {
        synchronized (GUARD) {
            unit(c);
        }
    }

    public void println(char c) {
        synchronized (GUARD) {
            unit(c);
            unit('\n');
        }
    }

    public void print(boolean b) {
        print(b ? "true" : "false");
    }

    public void println(boolean b) {
        println(b ? "true" : "false");
    }

    public void print(char[] units) {
        print(new String(units));
    }

    public void println(char[] units) {
        println(new String(units));
    }

    public void print(Object o) {
        print(String.valueOf(o));
    }

    public void println(Object o) {
        println(String.valueOf(o));
    }

    // ---- formats, appending

    public Out printf(String format, Object[] arguments) {
        print(Str.format(format, arguments));
        return this;
    }

    public Out format(String format, Object[] arguments) {
        return printf(format, arguments);
    }

    public Out printf(java.util.Locale locale, String format, Object[] arguments) {
        return printf(format, arguments);
    }

    public Out format(java.util.Locale locale, String format, Object[] arguments) {
        return printf(format, arguments);
    }

    public Out append(CharSequence s) {
        print(String.valueOf(s));
        return this;
    }

    public Out append(CharSequence s, int from, int to) {
        print(String.valueOf(s).substring(from, to));
        return this;
    }

    public Out append(char c) {
        print(c);
        return this;
    }

    // ---- bytes

    /** Writes a byte; one of standard output is taken as the unit of its number. */
    @Override
    public void write(int b) {
        synchronized (GUARD) {
            if (target != null) {
                bytes(new byte[] {(byte) b});
            } else {
                jx.raw.Out.unit(b & 255, error);
            }
        }
    }

    @Override
    public void write(byte[] b, int from, int count) {
        if (target == null) {
            print(new String(b, from, count));
            return;
        }
        try {
            target.write(b, from, count);
        } catch (IOException e) {
            // A PrintStream throws none.
        }
    }

    @Override
    public void write(byte[] b) {
        write(b, 0, b.length);
    }

    private void bytes(byte[] b) {
        write(b, 0, b.length);
    }

    public boolean checkError() {
        return false;
    }

    @Override
    public void flush() {
    }

    @Override
    public void close() {
    }
}
