package jx;

/** The exceptions of the machine's own instructions, with Java's messages. */
public final class Failures {
    private Failures() {
    }

    /** Returns the exception of an element that the array doesn't have, or of an array that is null. */
    public static Throwable index(Object array, int index) {
        if (array == null) {
            return new NullPointerException();
        }
        return new ArrayIndexOutOfBoundsException("Index " + index + " out of bounds for length " + Arr.length(array));
    }

    /** Returns the exception of an array of a negative length. */
    public static Throwable size(int length) {
        return new NegativeArraySizeException(String.valueOf(length));
    }

    /** Returns the exception of a value that the array can't hold. */
    public static Throwable store(Object value) {
        return new ArrayStoreException(Classes.getName(Obj.getClass(value)));
    }

    /** Returns the exception of a cast; the names of the places are those that `java` prints for classes of its class path. */
    public static Throwable cast(Object o, Class target) {
        String from = Classes.getName(Obj.getClass(o));
        String to = Classes.getName(target);
        return new ClassCastException("class " + from + " cannot be cast to class " + to + " (" + places(from, to) + ")");
    }

    private static String places(String from, String to) {
        if (isOfJava(from) == isOfJava(to)) {
            return from + " and " + to + " are in " + place(from);
        }
        return from + " is in " + place(from) + "; " + to + " is in " + place(to);
    }

    private static boolean isOfJava(String name) {
        return name.startsWith("java.") || name.startsWith("[");
    }

    private static String place(String name) {
        return isOfJava(name) ? "module java.base of loader 'bootstrap'" : "unnamed module of loader 'app'";
    }
}
