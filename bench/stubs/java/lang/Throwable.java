package java.lang;

public class Throwable implements java.io.Serializable {
    public Throwable() {}

    public Throwable(String message) {}

    public native String getMessage();
}
