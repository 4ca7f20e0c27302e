package java.lang;

/** A permission, which nothing asks for. */
public final class RuntimePermission extends java.security.Permission {
    public RuntimePermission(String name) {
        super(name);
    }
}
