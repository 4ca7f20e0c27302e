package jdk.internal.access;

/** What the JDK's collections ask of java.lang. */
public interface JavaLangAccess {
    <E extends Enum<E>> E[] getEnumConstantsShared(Class<E> c);

    String fastUUID(long high, long low);
}
