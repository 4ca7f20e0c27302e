package java.lang.invoke;

/** The look-ups of handles; those of fields are resolved by the tool. */
public final class MethodHandles {
    private static final Lookup LOOKUP = new Lookup();

    private MethodHandles() {
    }

    /** What a class looks its handles up by. */
    public static final class Lookup {
        Lookup() {
        }

        public Class<?> lookupClass() {
            return null;
        }

        public VarHandle findVarHandle(Class<?> holder, String name, Class<?> type) throws NoSuchFieldException, IllegalAccessException {
            throw new NoSuchFieldException(name);
        }

        public VarHandle findStaticVarHandle(Class<?> holder, String name, Class<?> type)
            throws NoSuchFieldException, IllegalAccessException {
            throw new NoSuchFieldException(name);
        }
    }

    public static Lookup lookup() {
        return LOOKUP;
    }

    public static Lookup privateLookupIn(Class<?> target, Lookup caller) {
        return caller;
    }

    public static VarHandle arrayElementVarHandle(Class<?> array) {
        return new Elements();
    }

    /** The elements of arrays. */
    private static final class Elements extends VarHandle {
        @Override
        public Object getObject(Object holder, int index) {
            return ((Object[]) holder)[index];
        }

        @Override
        public void putObject(Object holder, int index, Object value) {
            ((Object[]) holder)[index] = value;
        }

        @Override
        public int getInt(Object holder, int index) {
            return ((int[]) holder)[index];
        }

        @Override
        public void putInt(Object holder, int index, int value) {
            ((int[]) holder)[index] = value;
        }

        @Override
        public long getLong(Object holder, int index) {
            return ((long[]) holder)[index];
        }

        @Override
        public void putLong(Object holder, int index, long value) {
            ((long[]) holder)[index] = value;
        }
    }
}
