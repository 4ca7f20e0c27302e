package jx.raw;

/** A thread of the machine, which runs a body of the library. */
public final class Starter extends Thread {
    public final Runnable body;

    public Starter(Runnable body) {
        this.body = body;
    }

    @Override
    public void run() {
        body.run();
    }

    /** Waits for the end of the machine's thread. */
    public static void join(Starter starter) throws InterruptedException {
        starter.join();
    }

    /** Starts the machine's thread. */
    public static void start(Starter starter) {
        starter.start();
    }
}
