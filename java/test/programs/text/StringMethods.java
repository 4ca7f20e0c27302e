import java.util.Arrays;
import java.util.Locale;

/** A tour of String's methods, as a reference page would have it. */
public class StringMethods {
    public static void main(String[] args) {
        String s = "  The quick brown fox  ";
        System.out.println("[" + s.trim() + "]");
        System.out.println(s.length() + " " + s.isEmpty() + " " + "".isEmpty());
        System.out.println(s.indexOf("quick") + " " + s.indexOf('q') + " " + s.indexOf("cat") + " " + s.lastIndexOf('o') + " " + s.indexOf('o', 15));
        System.out.println(s.charAt(3) + "" + s.charAt(4));
        System.out.println("hello".substring(1) + " " + "hello".substring(1, 3) + " " + "hello".subSequence(2, 4));
        System.out.println("a,b,,c,,".split(",").length + " " + Arrays.toString("a,b,,c,,".split(",")));
        System.out.println(Arrays.toString("a,b,,c,,".split(",", -1)) + " " + Arrays.toString("a,b,c".split(",", 2)));
        System.out.println(Arrays.toString("one  two\tthree".split("\\s+")) + " " + Arrays.toString("1.2.3".split("\\.")));
        System.out.println(Arrays.toString("a1b22c333".split("[0-9]+")) + Arrays.toString("boo:and:foo".split("o")));
        System.out.println("Hello".toUpperCase() + " " + "Hello".toLowerCase() + " " + "title".toUpperCase(Locale.ROOT));
        System.out.println("banana".replace('a', 'o') + " " + "banana".replace("an", "-") + " " + "aaa".replace("aa", "b") + " " + "abc".replace("", "."));
        System.out.println("banana".replaceAll("[an]+", "<$0>") + " " + "banana".replaceFirst("a", "A"));
        System.out.println(String.join("-", "a", "b", "c") + " " + String.join("|", Arrays.asList("x", "y")));
        System.out.println("apple".compareTo("banana") + " " + "apple".compareTo("app") + " " + "a".compareToIgnoreCase("B"));
        System.out.println("Apple".equals("apple") + " " + "Apple".equalsIgnoreCase("aPPLE") + " " + "abc".contentEquals(new StringBuilder("abc")));
        System.out.println("hello".startsWith("he") + " " + "hello".endsWith("lo") + " " + "hello".startsWith("l", 2) + " " + "hello".contains("ell"));
        System.out.println("hello".hashCode() + " " + "".hashCode() + " " + "The quick brown fox".hashCode());
        System.out.println(String.valueOf(3) + String.valueOf('c') + String.valueOf(true) + String.valueOf(10L) + String.valueOf(new char[] {'x', 'y'}));
        System.out.println("abc".concat("def") + " " + new String("xyz").intern());
        System.out.println("x".compareTo("x") + " " + "regionMatches".regionMatches(true, 6, "MATCH", 0, 5));
        char[] c = "reverse me".toCharArray();
        for (int i = 0, j = c.length - 1; i < j; i++, j--) {
            char t = c[i];
            c[i] = c[j];
            c[j] = t;
        }
        System.out.println(new String(c) + " " + new String(c, 0, 2) + " " + String.copyValueOf(c, 3, 4));
        System.out.println("matches: " + "2024-01-31".matches("\\d{4}-\\d{2}-\\d{2}") + " " + "abc".matches("ab"));
        String a = "con" + "stant";
        System.out.println((a == "constant") + " " + (new String("constant") == "constant") + " " + (new String("constant").intern() == "constant"));
        long vowels = "the quick brown fox".chars().filter(x -> "aeiou".indexOf(x) >= 0).count();
        System.out.println(vowels + " " + "abc".chars().sum() + " " + "abc".codePointAt(1));
        StringBuilder dots = new StringBuilder();
        "a-b".chars().mapToObj(x -> (char) x).forEach(x -> dots.append(x).append('.'));
        System.out.println(dots);
        System.out.println("été ß €".toUpperCase() + " " + "ÀÉ".toLowerCase() + " \u03b1".toUpperCase());
        System.out.println("line1\nline2\tend \"quoted\" \\");
    }
}
