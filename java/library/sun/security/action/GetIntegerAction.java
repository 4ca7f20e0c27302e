package sun.security.action;

/** Asks for a property, none of which is set. */
public final class GetIntegerAction implements java.security.PrivilegedAction<Integer> {
    public GetIntegerAction(String property) {
    }

    @Override
    public Integer run() {
        return null;
    }
}
