package jx;

/**
 * Lets the other threads go on, as Thread.yield does: the thread waits for an answer of a thread of the library.
 *
 * <p>That thread needs nothing but a question, so the answer always comes. A schedule that stays with a thread while it can go on leaves
 * this one, and takes all others that can go on before it takes this one again. So a loop that waits for another thread ends.
 */
final class Yielding {
    private static final Object GUARD = new Object();
    private static jx.raw.Starter helper;
    private static int asked;
    private static int answered;
    private static boolean hasEnded;

    private Yielding() {
    }

    /** Waits for an answer. */
    static void yield() {
        try {
            synchronized (GUARD) {
                if (helper == null) {
                    start();
                }
                int mine = ++asked;
                jx.raw.Wait.notifyEach(GUARD);
                while (answered - mine < 0) {
                    jx.raw.Wait.on(GUARD);
                }
            }
        } catch (InterruptedException never) {
            // The library never interrupts a thread of the machine.
        }
    }

    /** Ends the thread that answers, if there is one: no other thread is left. */
    static void end() {
        synchronized (GUARD) {
            hasEnded = true;
            jx.raw.Wait.notifyEach(GUARD);
        }
    }

    private static void start() {
        helper = new jx.raw.Starter(new Answers());
        jx.raw.Starter.start(helper);
    }

    /** Answers questions until the end. */
    private static final class Answers implements Runnable {
        @Override
        public void run() {
            try {
                synchronized (GUARD) {
                    while (!hasEnded) {
                        answered = asked;
                        jx.raw.Wait.notifyEach(GUARD);
                        jx.raw.Wait.on(GUARD);
                    }
                }
            } catch (InterruptedException never) {
                // As above.
            }
        }
    }
}
