package java.security;

/** A permission, which nothing asks for. */
public abstract class Permission implements java.io.Serializable {
    private final String name;

    public Permission(String name) {
        this.name = name;
    }

    public final String getName() {
        return name;
    }
}
