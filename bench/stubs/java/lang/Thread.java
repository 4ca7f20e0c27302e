package java.lang;

public class Thread implements Runnable {
    public Thread() {}

    public Thread(Runnable target) {}

    public void run() {}

    public native void start();

    public final native void join() throws InterruptedException;
}
