package jvmx.tool;

import java.util.Arrays;
import java.util.Collections;
import java.util.HashMap;
import java.util.HashSet;
import java.util.Map;
import java.util.Set;

/** Knows the classes that the machine has itself, so that no class file may define them. */
final class BuiltIns {
    static final String OBJECT = "java/lang/Object";
    static final String CLASS = "java/lang/Class";
    static final String STRING = "java/lang/String";
    static final String THROWABLE = "java/lang/Throwable";
    static final String RUNNABLE = "java/lang/Runnable";
    static final String ENUM = "java/lang/Enum";
    static final String CLONEABLE = "java/lang/Cloneable";

    /** The name of String in the adapted program. */
    static final String TEXT = "jx/Str";

    private static final String THROWABLE_NAMES = "Throwable Exception Error RuntimeException InterruptedException "
        + "ArithmeticException ArrayStoreException ClassCastException IllegalMonitorStateException "
        + "IllegalArgumentException IllegalStateException IndexOutOfBoundsException NegativeArraySizeException "
        + "NullPointerException ArrayIndexOutOfBoundsException IllegalThreadStateException LinkageError "
        + "VirtualMachineError NoClassDefFoundError IncompatibleClassChangeError UnsatisfiedLinkError "
        + "ExceptionInInitializerError AbstractMethodError InstantiationError NoSuchFieldError NoSuchMethodError "
        + "OutOfMemoryError StackOverflowError";

    private static final Set<String> THROWABLES = new HashSet<>();
    private static final Set<String> KEPT = new HashSet<>(Arrays.asList(
        OBJECT, CLASS, RUNNABLE, CLONEABLE, "java/io/Serializable"));
    private static final Map<String, String> REPLACED = new HashMap<>();

    static {
        for (String name : THROWABLE_NAMES.split(" ")) {
            THROWABLES.add("java/lang/" + name);
        }
        KEPT.addAll(THROWABLES);
        REPLACED.put(STRING, TEXT);
        REPLACED.put("java/lang/System", "jx/Sys");
        REPLACED.put("java/lang/Thread", "jx/Thr");
        REPLACED.put("java/io/PrintStream", "jx/Out");
    }

    private BuiltIns() { }

    /** Returns whether the machine has the class. */
    static boolean isKept(String name) {
        return KEPT.contains(name) || REPLACED.containsKey(name);
    }

    /** Returns whether the class is one of the throwables that the machine has. */
    static boolean isThrowable(String name) {
        return THROWABLES.contains(name);
    }

    /** Returns the library's class with message and cause for a throwable that the machine has. */
    static String withMessage(String throwable) {
        return "jx/ex/" + throwable.substring("java/lang/".length());
    }

    /** Returns the names of the classes that keep their names. */
    static Set<String> kept() {
        return Collections.unmodifiableSet(KEPT);
    }

    /** Returns whether a class that keeps its name has the method, after calls were rewritten. */
    static boolean hasMethod(String owner, String key) {
        switch (key) {
            case "<init>()V": return !owner.equals(CLASS);
            case "notify()V":
            case "notifyAll()V":
            case "wait()V": return owner.equals(OBJECT);
            case "run()V": return owner.equals(RUNNABLE);
            case "<init>(Ljava/lang/String;)V":
            case "getMessage()Ljava/lang/String;": return THROWABLES.contains(owner);
            default: return false;
        }
    }

    /** Returns the superclass of a class that the machine has. */
    static String superclass(String name) {
        if (!THROWABLES.contains(name)) {
            return OBJECT;
        }
        switch (name.substring("java/lang/".length())) {
            case "Throwable": return OBJECT;
            case "Exception":
            case "Error": return THROWABLE;
            case "RuntimeException":
            case "InterruptedException": return "java/lang/Exception";
            case "LinkageError":
            case "VirtualMachineError": return "java/lang/Error";
            case "ArrayIndexOutOfBoundsException": return "java/lang/IndexOutOfBoundsException";
            case "IllegalThreadStateException": return "java/lang/IllegalArgumentException";
            case "OutOfMemoryError":
            case "StackOverflowError": return "java/lang/VirtualMachineError";
            case "NoClassDefFoundError":
            case "IncompatibleClassChangeError":
            case "UnsatisfiedLinkError":
            case "ExceptionInInitializerError": return "java/lang/LinkageError";
            case "AbstractMethodError":
            case "InstantiationError":
            case "NoSuchFieldError":
            case "NoSuchMethodError": return "java/lang/IncompatibleClassChangeError";
            default: return "java/lang/RuntimeException";
        }
    }

    /** Returns how many superclasses a class that the machine has has. */
    static int depth(String name) {
        int depth = 0;
        for (String at = name; at != null && !at.equals(OBJECT); at = superclass(at)) {
            depth++;
        }
        return depth;
    }

    /** Returns the library's classes by the names of those of the machine that they replace. */
    static Map<String, String> replaced() {
        return Collections.unmodifiableMap(REPLACED);
    }
}
