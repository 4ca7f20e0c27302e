package java.security;

/** A set of permissions, which nothing asks for. */
public abstract class PermissionCollection implements java.io.Serializable {
    public PermissionCollection() {
    }
}
