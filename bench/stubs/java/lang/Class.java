package java.lang;

/** Class objects are made by class literals alone: the constructor is hidden. */
public final class Class<T> implements java.io.Serializable {
    private Class() {}
}
