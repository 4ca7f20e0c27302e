package java.security;

/** A domain of permissions, of which there is none. */
public class ProtectionDomain {
    public ProtectionDomain(CodeSource source, PermissionCollection permissions) {
    }
}
