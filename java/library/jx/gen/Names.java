package jx.gen;

/** What the tool knows of the classes; it writes the bodies. */
public final class Names {
    private Names() {
    }

    /** Returns the name of the class, as Class.getName does. */
    public static String name(Class c) {
        return null;
    }

    /** Returns an array of the same class as this. */
    public static Object[] like(Object[] a, int length) {
        return null;
    }

    /** Returns the class of an array of references. */
    public static Class classOf(Object[] a) {
        return null;
    }

    /** Returns an array of this array class. */
    public static Object[] make(Class c, int length) {
        return null;
    }

    /** Returns an array whose elements are of this class. */
    public static Object[] of(Class c, int length) {
        return null;
    }

    /** Returns whether the object is an instance of the class. */
    public static boolean is(Class c, Object o) {
        return false;
    }

    /** Returns the access flags of the class file. */
    public static int flags(Class c) {
        return 0;
    }

    /** Returns the superclass, or null. */
    public static Class parent(Class c) {
        return null;
    }

    /** Returns the constants of an enum, or null. */
    public static Enum[] universe(Class c) {
        return null;
    }

    /** Returns the text constant of the program that has these units, or null. */
    public static String literal(String s) {
        return null;
    }
}
