package java.io;

public class PrintStream {
    private PrintStream() {}

    public native void print(int number);

    public native void print(long number);

    public native void print(String text);

    public native void println();

    public native void println(int number);

    public native void println(long number);

    public native void println(String text);
}
