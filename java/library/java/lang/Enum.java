package java.lang;

/** The base of enums; the tool gives each its own getDeclaringClass. */
public abstract class Enum<E extends Enum<E>> implements Comparable<E>, java.io.Serializable {
    private final String name;
    private final int ordinal;

    protected Enum(String name, int ordinal) {
        this.name = name;
        this.ordinal = ordinal;
    }

    public final String name() {
        return name;
    }

    public final int ordinal() {
        return ordinal;
    }

    @Override
    public String toString() {
        return name;
    }

    @Override
    public final boolean equals(Object o) {
        return this == o;
    }

    @Override
    public final int hashCode() {
        return System.identityHashCode(this);
    }

    @Override
    public final int compareTo(E o) {
        return ordinal - ((Enum<?>) o).ordinal;
    }

    public Class<E> getDeclaringClass() {
        throw new UnsupportedOperationException();
    }

    public static <T extends Enum<T>> T valueOf(Class<T> c, String name) {
        return (T) jx.Arr.find(c, name, jx.gen.Names.universe(c));
    }
}
