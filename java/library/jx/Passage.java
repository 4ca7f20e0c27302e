package jx;

/** What a wait does between the freeing of its monitor and the return. */
public abstract class Passage {
    /** Is called when the monitor has been freed. */
    public abstract void left();

    /** Is called before the monitor is entered again. */
    public abstract void returns();
}
