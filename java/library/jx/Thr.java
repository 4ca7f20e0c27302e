package jx;

/** The Thread of rewritten programs. */
public class Thr implements Runnable {
    /** Is Thread.UncaughtExceptionHandler. */
    public interface UncaughtExceptionHandler {
        void uncaughtException(Thr thread, Throwable e);
    }

    /** Is Thread.State. */
    public enum State { NEW, RUNNABLE, BLOCKED, WAITING, TIMED_WAITING, TERMINATED }

    public static final int MIN_PRIORITY = 1, NORM_PRIORITY = 5, MAX_PRIORITY = 10;

    private static final int SPINS = 8;
    private static final Object GUARD = new Object();
    private static Thr[] live = new Thr[0];
    private static Thr main;
    private static int number;
    private static int ids;
    /** How many threads that aren't daemons haven't left. */
    private static int users;
    /** How many threads have been started and haven't left. */
    private static int present;
    /** How often a thread has said that it spins. */
    private static int spins;
    private static UncaughtExceptionHandler byDefault;

    /** Is owned by the thread while it runs. */
    final Object self = new Object();
    /** Is waited on by the thread where it is blocked. */
    final Object parker = new Object();
    /** Stands for the thread's permit among what a thread waits for. */
    final Object permitted = new Object();
    /** What the thread waits for, null where it doesn't. */
    Object waitingOn;
    /** The lock that the thread is about to enter, where others have to know that. */
    Object entering;
    /** Why the thread was woken, 0 while it waits. */
    int cause;
    long deadline = Clock.FOREVER;
    boolean permit;
    boolean interrupted;
    public java.util.HashMap locals;
    public java.util.HashMap inheritable;
    public Object blocker;

    private final Runnable target;
    private final long id = nextId();
    private String name;
    private boolean started;
    private boolean ended;
    private boolean daemon;
    private int priority = NORM_PRIORITY;
    private jx.raw.Starter starter;
    private UncaughtExceptionHandler handler;
    private ThreadGroup group;
    private Object loader;

    public Thr() {
        this(null, null, null);
    }

    public Thr(Runnable target) {
        this(null, target, null);
    }

    public Thr(String name) {
        this(null, null, checked(name));
    }

    public Thr(Runnable target, String name) {
        this(null, target, checked(name));
    }

    public Thr(ThreadGroup group, Runnable target) {
        this(group, target, null);
    }

    public Thr(ThreadGroup group, String name) {
        this(group, null, checked(name));
    }

    public Thr(ThreadGroup group, Runnable target, String name) {
        this.target = target;
        this.name = name == null ? nextName() : name;
        Thr parent = main == null ? null : current();
        if (parent != null) {
            daemon = parent.daemon;
            priority = parent.priority;
            inheritable = parent.inheritable == null ? null : InheritableThreadLocal.inherit(parent.inheritable);
        }
        this.group = group != null ? group : parent != null ? parent.group : ThreadGroup.main();
    }

    public Thr(ThreadGroup group, Runnable target, String name, long stackSize) {
        this(group, target, name);
    }

    public Thr(ThreadGroup group, Runnable target, String name, long stackSize, boolean inherit) {
        this(group, target, name);
    }

    private static String checked(String name) {
        if (name == null) {
            throw new NullPointerException("name cannot be null");
        }
        return name;
    }

    private static String nextName() {
        synchronized (GUARD) {
            return "Thread-" + number++;
        }
    }

    private static long nextId() {
        synchronized (GUARD) {
            return ++ids;
        }
    }

    // ---- the running thread

    /** Makes the object of the first thread. */
    public static void enterMain() {
        Thr first = new Thr(null, null, "main");
        first.started = true;
        jx.raw.Mon.enter(first.self);
        add(first);
        main = first;
        users = 1;
        present = 1;
    }

    /** Ends the first thread, after main has thrown this, or null. */
    public static void exitMain(Throwable thrown) throws Throwable {
        main.end(thrown);
    }

    private static void add(Thr thread) {
        synchronized (GUARD) {
            Thr[] more = new Thr[live.length + 1];
            for (int i = 0; i < live.length; i++) {
                more[i] = live[i];
            }
            more[live.length] = thread;
            live = more;
        }
    }

    private static void remove(Thr thread) {
        synchronized (GUARD) {
            Thr[] fewer = new Thr[live.length - 1];
            int at = 0;
            for (int i = 0; i < live.length; i++) {
                if (live[i] != thread) {
                    fewer[at++] = live[i];
                }
            }
            live = fewer;
        }
    }

    /** Counts a thread that leaves, and returns whether it is the last. */
    private static boolean isLastToLeave() {
        synchronized (GUARD) {
            return --present == 0;
        }
    }

    public static Thr currentThread() {
        return current();
    }

    static Thr current() {
        Object o = jx.raw.N.current();
        if (o == null) {
            return main;
        }
        if (o instanceof jx.raw.Starter) {
            return ((Body) ((jx.raw.Starter) o).body).thread;
        }
        Thr[] all = live;
        for (int i = all.length - 1; i >= 0; i--) {
            if (jx.raw.Wait.holds(all[i].self)) {
                return all[i];
            }
        }
        return main;
    }

    /** Returns whether a thread is about to enter the lock. */
    static boolean isEntered(Object lock) {
        Thr[] all = live;
        for (int i = 0; i < all.length; i++) {
            if (all[i].entering == lock) {
                return true;
            }
        }
        return false;
    }

    public static int activeCount() {
        return live.length;
    }

    public static int enumerate(Thr[] into) {
        Thr[] all = live;
        int n = Math.min(into.length, all.length);
        for (int i = 0; i < n; i++) {
            into[i] = all[i];
        }
        return n;
    }

    // ---- life

    /** Runs a started thread on the machine's. */
    private static final class Body implements Runnable {
        final Thr thread;

        Body(Thr thread) {
            this.thread = thread;
        }

        public void run() {
            jx.raw.Mon.enter(thread.self);
            add(thread);
            Throwable thrown = null;
            try {
                thread.run();
            } catch (Throwable e) {
                thrown = e;
            }
            thread.end(thrown);
        }
    }

    @Override
    public void run() {
        if (target != null) {
            target.run();
        }
    }

    public synchronized void start() {
        if (started) {
            throw new IllegalThreadStateException();
        }
        if (Parking.isHalting()) {
            throw new Halt();
        }
        started = true;
        synchronized (GUARD) {
            present++;
            if (!daemon) {
                users++;
            }
        }
        Clock.started();
        starter = new jx.raw.Starter(new Body(this));
        jx.raw.Starter.start(starter);
    }

    /** Hands an exception to its handler, and ends the thread; without a handler throws it on, for the machine to report. */
    private void end(Throwable thrown) {
        if (thrown instanceof Halt) {
            thrown = null;
        }
        UncaughtExceptionHandler chosen = handler != null ? handler : byDefault;
        if (thrown != null && chosen != null) {
            try {
                chosen.uncaughtException(this, thrown);
            } catch (Throwable ignored) {
            }
            thrown = null;
        }
        if (thrown != null && !(thrown instanceof ThreadDeath)) {
            Sys.err.print("Exception in thread \"" + name + "\" ");
            Throwables.print(thrown, Sys.err);
        }
        leave();
        if (thrown != null) {
            Thr.<RuntimeException>rethrow(thrown);
        }
    }

    private static <E extends Throwable> void rethrow(Throwable e) throws E {
        throw (E) e;
    }

    private void leave() {
        boolean last = false;
        synchronized (GUARD) {
            if (!daemon) {
                last = --users == 0;
            }
        }
        if (last) {
            Hooks.start();
        }
        remove(this);
        if (jx.gen.Settings.parks()) {
            synchronized (Clock.GUARD) {
                ended = true;
                Parking.wakeWaiting(this, true);
            }
        } else {
            synchronized (this) {
                ended = true;
                jx.raw.Wait.notifyEach(this);
            }
        }
        if (last && users == 0) {
            Parking.halt();
        }
        Clock.ended();
        if (isLastToLeave()) {
            Yielding.end();
        }
        jx.raw.Mon.exit(self);
    }

    /** Is System.exit: runs the hooks, and ends all threads where they next wait. */
    static void exit() {
        Object[] hooks = Hooks.start();
        for (int i = 0; i < hooks.length; i++) {
            try {
                Parking.join((Thr) hooks[i], 0);
            } catch (InterruptedException e) {
                break;
            }
        }
        Parking.halt();
        throw new Halt();
    }

    public final void join() throws InterruptedException {
        if (jx.gen.Settings.parks()) {
            Parking.join(this, 0);
        }
        if (starter != null) {
            jx.raw.Starter.join(starter);
        }
    }

    public final void join(long milliseconds) throws InterruptedException {
        if (milliseconds < 0) {
            throw new IllegalArgumentException("timeout value is negative");
        }
        if (milliseconds == 0) {
            join();
            return;
        }
        Parking.join(this, Clock.nanos(milliseconds));
        if (ended) {
            jx.raw.Starter.join(starter);
        }
    }

    public final void join(long milliseconds, int nanos) throws InterruptedException {
        join(nanos > 0 ? milliseconds + 1 : milliseconds);
    }

    public final boolean isAlive() {
        return started && !ended;
    }

    // ---- properties

    public final String getName() {
        return name;
    }

    public final void setName(String name) {
        this.name = checked(name);
    }

    public long getId() {
        return id;
    }

    public final long threadId() {
        return id;
    }

    public final boolean isDaemon() {
        return daemon;
    }

    public final void setDaemon(boolean daemon) {
        if (isAlive()) {
            throw new IllegalThreadStateException();
        }
        this.daemon = daemon;
    }

    public final int getPriority() {
        return priority;
    }

    public final void setPriority(int priority) {
        if (priority < MIN_PRIORITY || priority > MAX_PRIORITY) {
            throw new IllegalArgumentException();
        }
        this.priority = priority;
    }

    public final ThreadGroup getThreadGroup() {
        return ended ? null : group;
    }

    /** Returns the state; a thread that is blocked by a monitor shows as runnable. */
    public State getState() {
        if (!started) {
            return State.NEW;
        }
        if (ended) {
            return State.TERMINATED;
        }
        if (waitingOn == null) {
            return State.RUNNABLE;
        }
        return deadline == Clock.FOREVER ? State.WAITING : State.TIMED_WAITING;
    }

    public ClassLoader getContextClassLoader() {
        return null;
    }

    public void setContextClassLoader(ClassLoader loader) {
    }

    public StackTraceElement[] getStackTrace() {
        return new StackTraceElement[0];
    }

    public static void dumpStack() {
    }

    public UncaughtExceptionHandler getUncaughtExceptionHandler() {
        return handler;
    }

    public void setUncaughtExceptionHandler(UncaughtExceptionHandler handler) {
        this.handler = handler;
    }

    public static UncaughtExceptionHandler getDefaultUncaughtExceptionHandler() {
        return byDefault;
    }

    public static void setDefaultUncaughtExceptionHandler(UncaughtExceptionHandler handler) {
        byDefault = handler;
    }

    // ---- interrupts, pauses

    public boolean isInterrupted() {
        return interrupted;
    }

    public static boolean interrupted() {
        return current().takeInterrupt();
    }

    private boolean takeInterrupt() {
        boolean taken = interrupted;
        if (taken) {
            interrupted = false;
        }
        return taken;
    }

    public void interrupt() {
        if (!isAlive()) {
            return;
        }
        Parking.interrupt(this);
    }

    public final void checkAccess() {
    }

    public static void yield() {
        Yielding.yield();
    }

    /** Lets the others go on now and then: who calls this calls it often. */
    public static void onSpinWait() {
        if ((++spins & SPINS - 1) == 0) {
            Yielding.yield();
        }
    }

    public static void sleep(long milliseconds) throws InterruptedException {
        if (milliseconds < 0) {
            throw new IllegalArgumentException("timeout value is negative");
        }
        Parking.sleep(Clock.nanos(milliseconds));
    }

    public static void sleep(long milliseconds, int nanos) throws InterruptedException {
        Parking.sleep(Clock.nanos(milliseconds) + nanos);
    }

    public static boolean holdsLock(Object o) {
        return Obj.holds(o);
    }

    @Override
    public String toString() {
        return "Thread[" + name + "," + priority + "," + (ended ? "" : group.getName()) + "]";
    }
}
