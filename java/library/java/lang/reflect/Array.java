package java.lang.reflect;

/** Makes arrays of those classes that the program names. */
public final class Array {
    private Array() {
    }

    public static Object newInstance(Class<?> element, int length) {
        if (length < 0) {
            throw new NegativeArraySizeException(String.valueOf(length));
        }
        return jx.gen.Names.of(element, length);
    }

    public static int getLength(Object array) {
        return jx.Arr.length(array);
    }

    public static Object get(Object array, int index) {
        if (array instanceof Object[]) {
            return ((Object[]) array)[index];
        }
        if (array instanceof int[]) {
            return ((int[]) array)[index];
        }
        if (array instanceof long[]) {
            return ((long[]) array)[index];
        }
        if (array instanceof char[]) {
            return ((char[]) array)[index];
        }
        if (array instanceof byte[]) {
            return ((byte[]) array)[index];
        }
        if (array instanceof short[]) {
            return ((short[]) array)[index];
        }
        if (array instanceof boolean[]) {
            return ((boolean[]) array)[index];
        }
        throw new IllegalArgumentException("Argument is not an array");
    }
}
