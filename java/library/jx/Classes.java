package jx;

/** The methods of Class. */
public final class Classes {
    private static final int INTERFACE = 0x200, ABSTRACT = 0x400, ENUM = 0x4000, ANNOTATION = 0x2000, SYNTHETIC = 0x1000;

    private Classes() {
    }

    public static boolean desiredAssertionStatus(Class c) {
        return jx.gen.Settings.assertions();
    }

    // ---- names

    public static String getName(Class c) {
        String name = jx.gen.Names.name(c);
        return name == null ? "?" : name;
    }

    public static String getTypeName(Class c) {
        return readable(getName(c));
    }

    public static String getCanonicalName(Class c) {
        return readable(getName(c)).replace('$', '.');
    }

    /** Returns the name with brackets after it where it is an array's. */
    private static String readable(String name) {
        int depth = 0;
        while (depth < name.length() && name.charAt(depth) == '[') {
            depth++;
        }
        if (depth == 0) {
            return name;
        }
        StringBuilder b = new StringBuilder(element(name.substring(depth)));
        for (int i = 0; i < depth; i++) {
            b.append("[]");
        }
        return b.toString();
    }

    private static String element(String descriptor) {
        switch (descriptor.charAt(0)) {
            case 'L':
                return descriptor.substring(1, descriptor.length() - 1);
            case 'I':
                return "int";
            case 'J':
                return "long";
            case 'C':
                return "char";
            case 'B':
                return "byte";
            case 'S':
                return "short";
            case 'Z':
                return "boolean";
            case 'F':
                return "float";
            default:
                return "double";
        }
    }

    public static String getSimpleName(Class c) {
        String name = readable(getName(c));
        int at = Math.max(name.lastIndexOf('.'), name.lastIndexOf('$')) + 1;
        while (at < name.length() && name.charAt(at) >= '0' && name.charAt(at) <= '9') {
            at++;
        }
        return name.substring(at);
    }

    public static String getPackageName(Class c) {
        String name = getName(c);
        int at = name.lastIndexOf('.');
        return at < 0 ? "" : name.substring(0, at);
    }

    public static String toString(Class c) {
        return (isInterface(c) ? "interface " : "class ") + getName(c);
    }

    public static int hashCode(Class c) {
        return getName(c).hashCode();
    }

    // ---- kinds

    public static boolean isArray(Class c) {
        return getName(c).startsWith("[");
    }

    public static boolean isInterface(Class c) {
        return (jx.gen.Names.flags(c) & INTERFACE) != 0;
    }

    public static boolean isEnum(Class c) {
        return (jx.gen.Names.flags(c) & ENUM) != 0 && getSuperclass(c) == Enum.class;
    }

    public static boolean isAnnotation(Class c) {
        return (jx.gen.Names.flags(c) & ANNOTATION) != 0;
    }

    public static boolean isSynthetic(Class c) {
        return (jx.gen.Names.flags(c) & SYNTHETIC) != 0;
    }

    public static boolean isPrimitive(Class c) {
        return false;
    }

    public static boolean isRecord(Class c) {
        Class parent = getSuperclass(c);
        return parent != null && getName(parent).equals("java.lang.Record");
    }

    public static boolean isAnonymousClass(Class c) {
        return getSimpleName(c).isEmpty();
    }

    public static int getModifiers(Class c) {
        return jx.gen.Names.flags(c) & (INTERFACE | ABSTRACT | ENUM | ANNOTATION | 0x1f);
    }

    // ---- relations

    public static Class getSuperclass(Class c) {
        return isArray(c) ? Object.class : jx.gen.Names.parent(c);
    }

    public static boolean isInstance(Class c, Object o) {
        return o != null && jx.gen.Names.is(c, o);
    }

    public static Object cast(Class c, Object o) {
        if (o != null && !jx.gen.Names.is(c, o)) {
            throw new ClassCastException("Cannot cast " + getName(Obj.getClass(o)) + " to " + getName(c));
        }
        return o;
    }

    /** Returns the class of the elements, of those array classes that the program names. */
    public static Class getComponentType(Class c) {
        return isArray(c) ? jx.gen.Names.parent(c) : null;
    }

    public static Object[] getEnumConstants(Class c) {
        return jx.gen.Names.universe(c);
    }

    public static Class getPrimitiveClass(String name) {
        return null;
    }

    public static ClassLoader getClassLoader(Class c) {
        return null;
    }

    /** Returns none: there is no reflection. */
    public static java.lang.reflect.Constructor[] getConstructors(Class c) {
        return new java.lang.reflect.Constructor[0];
    }

    public static java.lang.reflect.Constructor getConstructor(Class c, Class[] parameters) throws NoSuchMethodException {
        throw new NoSuchMethodException(getName(c));
    }

    public static boolean isAssignableFrom(Class c, Class other) {
        for (Class k = other; k != null; k = getSuperclass(k)) {
            if (k == c) {
                return true;
            }
        }
        return c == Object.class;
    }

    /** Returns the class of a throwable that the machine made. */
    static Class ofThrowable(Throwable t) {
        if (t instanceof ArrayIndexOutOfBoundsException) {
            return ArrayIndexOutOfBoundsException.class;
        }
        if (t instanceof NullPointerException) {
            return NullPointerException.class;
        }
        if (t instanceof ArithmeticException) {
            return ArithmeticException.class;
        }
        if (t instanceof ClassCastException) {
            return ClassCastException.class;
        }
        if (t instanceof ArrayStoreException) {
            return ArrayStoreException.class;
        }
        if (t instanceof NegativeArraySizeException) {
            return NegativeArraySizeException.class;
        }
        if (t instanceof IllegalMonitorStateException) {
            return IllegalMonitorStateException.class;
        }
        return t instanceof Error ? ofError(t) : t instanceof RuntimeException ? RuntimeException.class : Exception.class;
    }

    private static Class ofError(Throwable t) {
        if (t instanceof StackOverflowError) {
            return StackOverflowError.class;
        }
        if (t instanceof OutOfMemoryError) {
            return OutOfMemoryError.class;
        }
        if (t instanceof ExceptionInInitializerError) {
            return ExceptionInInitializerError.class;
        }
        if (t instanceof NoClassDefFoundError) {
            return NoClassDefFoundError.class;
        }
        if (t instanceof NoSuchMethodError) {
            return NoSuchMethodError.class;
        }
        if (t instanceof NoSuchFieldError) {
            return NoSuchFieldError.class;
        }
        if (t instanceof AbstractMethodError) {
            return AbstractMethodError.class;
        }
        if (t instanceof UnsatisfiedLinkError) {
            return UnsatisfiedLinkError.class;
        }
        return t instanceof LinkageError ? LinkageError.class : Error.class;
    }

    /** Returns the class of an object without a method for it: an array, a class, a plain Object. */
    static Class ofOther(Object o) {
        if (o instanceof Object[]) {
            return jx.gen.Names.classOf((Object[]) o);
        }
        if (o instanceof int[]) {
            return int[].class;
        }
        if (o instanceof char[]) {
            return char[].class;
        }
        if (o instanceof byte[]) {
            return byte[].class;
        }
        if (o instanceof long[]) {
            return long[].class;
        }
        if (o instanceof boolean[]) {
            return boolean[].class;
        }
        if (o instanceof short[]) {
            return short[].class;
        }
        return o instanceof Class ? Class.class : Object.class;
    }
}
