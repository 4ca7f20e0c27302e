/** The order of static and instance initialisers. */
public class Initialisation {
    static void say(String s) {
        System.out.println(s);
    }

    static int number(String s, int n) {
        say(s);
        return n;
    }

    static class Parent {
        static int a = number("Parent.a", 1);

        static {
            say("Parent static");
        }

        int b = number("Parent.b", 2);

        {
            say("Parent instance");
        }

        Parent() {
            say("Parent() " + describe());
        }

        String describe() {
            return "parent";
        }
    }

    static class Child extends Parent {
        static final int CONSTANT = 42;
        static final Integer BOXED = number("Child.BOXED", 43);
        int c = number("Child.c", 3);
        String name = "child";

        Child() {
            this(9);
            say("Child()");
        }

        Child(int n) {
            super();
            say("Child(int) " + n + " " + describe());
        }

        @Override
        String describe() {
            return "name " + name + " c " + c;
        }
    }

    static class Lazy {
        static {
            say("Lazy is made");
        }

        static final Lazy ONE = new Lazy();

        static void touch() {
            say("touched");
        }
    }

    static class Bad {
        static int x = 1 / Integer.parseInt("0");
    }

    interface WithField {
        int F = number("interface field", 5);
    }

    static class Implementor implements WithField {
    }

    public static void main(String[] args) {
        say("constant " + Child.CONSTANT);
        new Child();
        new Child(1);
        say("before lazy");
        Lazy.touch();
        Lazy.touch();
        new Implementor();
        say("implemented");
        say("field " + WithField.F);
        try {
            say("" + Bad.x);
        } catch (ExceptionInInitializerError e) {
            say("initialiser failed: " + e.getCause());
        }
        try {
            say("" + Bad.x);
        } catch (NoClassDefFoundError e) {
            say("no class");
        }
        Child[] array = new Child[2];
        say("array " + array.length);
    }
}
