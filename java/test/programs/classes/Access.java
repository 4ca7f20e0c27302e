import java.util.*;

/** Private members of nested classes, synthetic accessors, hidden fields, super calls. */
public class Access {
    private int secret = 1;

    private static int count(int n) {
        return n + 1;
    }

    private class A {
        private int a = secret++;

        private int touch(B b) {
            return a + b.b + secret + count(b.hidden());
        }
    }

    private static class B {
        private int b = 10;

        private int hidden() {
            return b *= 2;
        }
    }

    static class Top {
        String name = "top";

        String name() {
            return name;
        }

        static String kind() {
            return "Top";
        }
    }

    static class Middle extends Top {
        String name = "middle";

        String name() {
            return name + "<" + super.name();
        }

        static String kind() {
            return "Middle";
        }
    }

    static class Bottom extends Middle {
        String name = "bottom";

        String name() {
            return name + "<" + super.name() + "|" + ((Top) this).name + "|" + super.name;
        }
    }

    interface Greeter {
        default String hi() {
            return "hi";
        }
    }

    static class Person implements Greeter, Cloneable {
        List<String> tags = new ArrayList<>();
        int[] scores = {1};

        @Override
        public String hi() {
            return Greeter.super.hi() + "!";
        }

        @Override
        public Person clone() throws CloneNotSupportedException {
            Person p = (Person) super.clone();
            p.scores = scores.clone();
            return p;
        }
    }

    public static void main(String[] args) throws Exception {
        Access x = new Access();
        System.out.println(x.new A().touch(new B()) + " " + x.secret);
        Top t = new Bottom();
        System.out.println(t.name() + " " + t.name + " " + ((Middle) t).name + " " + Top.kind() + Middle.kind());
        Person p = new Person();
        Person q = p.clone();
        q.tags.add("shared");
        q.scores[0] = 5;
        System.out.println(p.tags + " " + p.scores[0] + " " + q.hi() + " " + (p != q) + " " + (p.getClass() == q.getClass()));
        Object o = new Object() {
            @Override
            public boolean equals(Object other) {
                return true;
            }

            @Override
            public int hashCode() {
                return 42;
            }
        };
        System.out.println(o.equals("anything") + " " + o.hashCode() + " " + "x".equals(o) + " " + new HashSet<>(Arrays.asList(o)).contains(new Object() {
            public int hashCode() {
                return 42;
            }
        }));
        int[] counter = {0};
        class Local extends Top {
            final int id = ++counter[0];

            @Override
            String name() {
                return super.name() + id + args.length;
            }
        }
        System.out.println(new Local().name() + new Local().name());
    }
}
