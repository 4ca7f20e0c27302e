package jdk.internal.access;

/** Hands out what the JDK's packages ask of each other. */
public final class SharedSecrets {
    private static final JavaLangAccess LANG = new Lang();
    private static JavaUtilCollectionAccess collections;

    private SharedSecrets() {
    }

    /** The part of java.lang. */
    private static final class Lang implements JavaLangAccess {
        @Override
        public <E extends Enum<E>> E[] getEnumConstantsShared(Class<E> c) {
            return (E[]) jx.gen.Names.universe(c);
        }

        @Override
        public String fastUUID(long high, long low) {
            throw new UnsupportedOperationException();
        }
    }

    public static JavaLangAccess getJavaLangAccess() {
        return LANG;
    }

    public static JavaUtilCollectionAccess getJavaUtilCollectionAccess() {
        return collections;
    }

    public static void setJavaUtilCollectionAccess(JavaUtilCollectionAccess access) {
        collections = access;
    }
}
