package java.util.concurrent;

/** A generator for each thread. */
public class ThreadLocalRandom extends java.util.Random {
    private static final ThreadLocal<ThreadLocalRandom> OWN = ThreadLocal.withInitial(ThreadLocalRandom::new);

    private boolean made;

    ThreadLocalRandom() {
        super(Thread.currentThread().getId());
        made = true;
    }

    public static ThreadLocalRandom current() {
        return OWN.get();
    }

    @Override
    public void setSeed(long seed) {
        if (made) {
            throw new UnsupportedOperationException();
        }
        super.setSeed(seed);
    }

    // ---- what the JDK's own classes ask for

    static void localInit() {
    }

    static int getProbe() {
        return (int) Thread.currentThread().getId() * 0x9e3779b9 | 1;
    }

    static int advanceProbe(int probe) {
        int next = probe ^ probe << 13;
        next ^= next >>> 17;
        return next ^ next << 5;
    }

    static int nextSecondarySeed() {
        return current().nextInt();
    }

    static void eraseThreadLocals(Thread thread) {
    }

    static void setInheritedAccessControlContext(Thread thread, java.security.AccessControlContext context) {
    }
}
