package java.security;

/** The context of permissions, of which there is none. */
public final class AccessControlContext {
    public AccessControlContext(ProtectionDomain[] domains) {
    }
}
