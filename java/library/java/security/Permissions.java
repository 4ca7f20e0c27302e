package java.security;

/** A set of permissions, which nothing asks for. */
public final class Permissions extends PermissionCollection {
    public Permissions() {
    }

    public void add(Permission permission) {
    }
}
