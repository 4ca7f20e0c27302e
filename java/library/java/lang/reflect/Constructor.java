package java.lang.reflect;

/** A constructor as an object, which isn't there. */
public final class Constructor<T> {
    private Constructor() {
    }

    public T newInstance(Object... arguments) throws InstantiationException, IllegalAccessException, InvocationTargetException {
        throw new UnsupportedOperationException("reflection");
    }

    public Class<?>[] getParameterTypes() {
        throw new UnsupportedOperationException("reflection");
    }
}
