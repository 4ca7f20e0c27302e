/** Texts beyond ASCII, which print as UTF-8, and constants of equal text, which are one object. */
public class Texts {
    static class Other {
        static String greeting() {
            return "greeting";
        }
    }

    static String same(Object one, Object other) {
        if (one != other) return "two objects";
        return "one object";
    }

    static void print() {
        System.out.println("two bytes: \u00e4 \u00f1 \u03bb \u0416");
        System.out.println("three bytes: \u20ac \u4e2d \u2192 \uffee");
        System.out.println("four bytes: \ud83d\ude00 \ud834\udd1e");
        System.out.println("the unit zero: [\u0000]");
        System.out.println("half a pair: [\ud83d] [\ude00] [\ude00\ud83d]");
        System.out.println("tab\t, quote \", backslash \\, and a line\nof its own");
    }

    public static void main(String[] words) {
        print();
        System.out.println(same("greeting", "greeting"));
        System.out.println(same("greeting", Other.greeting()));
        System.out.println(same("greet" + "ing", Other.greeting()));
        System.out.println(same("greeting", "Greeting"));
        System.out.println("" == "" ? "empty texts are one" : "empty texts are two");
        Object text = "a text";
        System.out.println(text instanceof String ? "a text is a String" : "no String");
        System.out.println((String) text);
    }
}
