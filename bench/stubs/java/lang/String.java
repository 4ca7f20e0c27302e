package java.lang;

/** Texts are made by constants alone: the constructor is hidden. */
public final class String implements java.io.Serializable {
    private String() {}
}
