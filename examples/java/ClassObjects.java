// Majors: 49 50

/** Class literals: one object for each class, array class and name. */
public class ClassObjects {
    static class Never {}

    static String same(Object one, Object other) {
        return one == other ? "same" : "other";
    }

    static Class[] three() {
        return new Class[] {ClassObjects.class, int[].class, String[][].class};
    }

    public static void main(String[] words) {
        System.out.println(same(ClassObjects.class, ClassObjects.class));
        System.out.println(same(ClassObjects.class, Never.class));
        System.out.println(same(three()[0], ClassObjects.class));
        System.out.println(same(three()[1], int[].class));
        System.out.println(same(int[].class, byte[].class));
        System.out.println(same(three()[2], String[][].class));
        System.out.println(same(String[].class, Object[].class));
        System.out.println(same(Runnable.class, Runnable.class));
        Object literal = Class.class;
        System.out.println(literal instanceof Class ? "a class" : "something else");
        System.out.println(literal instanceof java.io.Serializable ? "serializable" : "not serializable");
        System.out.println(literal instanceof Runnable ? "runnable" : "not runnable");
    }
}
