package jdk.internal.access;

import java.util.List;

/** What others may ask of the JDK's unmodifiable lists. */
public interface JavaUtilCollectionAccess {
    <E> List<E> listFromTrustedArray(Object[] array);

    <E> List<E> listFromTrustedArrayNullsAllowed(Object[] array);
}
