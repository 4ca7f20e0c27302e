package java.security;

/** An action that the JDK's classes run with privileges, and that may throw. */
@FunctionalInterface
public interface PrivilegedExceptionAction<T> {
    T run() throws Exception;
}
