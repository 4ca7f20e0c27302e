package java.security;

/** An action that the JDK's classes run with privileges. */
@FunctionalInterface
public interface PrivilegedAction<T> {
    T run();
}
