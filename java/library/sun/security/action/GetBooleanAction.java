package sun.security.action;

/** Asks for a property, none of which is set. */
public final class GetBooleanAction implements java.security.PrivilegedAction<Boolean> {
    public GetBooleanAction(String property) {
    }

    @Override
    public Boolean run() {
        return Boolean.FALSE;
    }
}
