package java.lang;

public class Object {
    public Object() {}

    public final native void wait() throws InterruptedException;

    public final native void notify();

    public final native void notifyAll();
}
