package java.lang;

/** A checker of permissions, of which there is none. */
public class SecurityManager {
    public SecurityManager() {
    }

    public void checkPermission(java.security.Permission permission) {
    }

    public void checkAccess(Thread thread) {
    }

    public ThreadGroup getThreadGroup() {
        return ThreadGroup.main();
    }
}
