import java.util.*;
import java.util.regex.*;
import java.util.stream.Collectors;

/** Patterns, groups, replacement, splitting. */
public class Patterns {
    public static void main(String[] args) {
        Pattern date = Pattern.compile("(\\d{4})-(\\d{2})-(\\d{2})");
        Matcher m = date.matcher("from 2024-01-31 to 2025-12-01.");
        while (m.find()) {
            System.out.println(m.group() + " " + m.group(1) + "/" + m.group(2) + " at " + m.start() + ".." + m.end() + " of " + m.groupCount());
        }
        System.out.println("2024-01-31".replaceAll("(\\d+)-(\\d+)-(\\d+)", "$3.$2.$1"));
        Matcher named = Pattern.compile("(?<key>\\w+)=(?<value>[^;]*);?").matcher("a=1;bc=two;d=");
        Map<String, String> map = new LinkedHashMap<>();
        while (named.find()) {
            map.put(named.group("key"), named.group("value"));
        }
        System.out.println(map);
        System.out.println(Pattern.matches("[a-z]+@[a-z]+\\.(com|org)", "me@site.org") + " " + "me@site".matches(".*@.*\\..*"));
        System.out.println(Pattern.compile("\\s*,\\s*").splitAsStream("a , b,c ,d").collect(Collectors.toList()));
        System.out.println(Arrays.toString("one1two22three".split("\\d+")) + Arrays.toString("a|b".split("\\|")) + Arrays.toString("x".split("y")) + Arrays.toString("".split(",")));
        System.out.println(Pattern.compile("HELLO", Pattern.CASE_INSENSITIVE).matcher("say hello").find() + " " + Pattern.compile("^b", Pattern.MULTILINE).matcher("a\nb").find());
        System.out.println("aaa".replaceAll("a*?", "x") + " " + "aaa".replaceAll("a+", "b") + " " + "foo.bar".replaceAll(Pattern.quote("."), Matcher.quoteReplacement("$")));
        StringBuffer sb = new StringBuffer();
        Matcher words = Pattern.compile("\\b(\\w)(\\w*)\\b").matcher("the quick brown");
        while (words.find()) {
            words.appendReplacement(sb, words.group(1).toUpperCase() + words.group(2));
        }
        System.out.println(words.appendTail(sb));
        System.out.println("((a)(b))?c".length() + " " + "abab".matches("(ab)\\1") + " " + "foobar".replaceAll("foo(?=bar)", "X") + " " + "price: $5".replaceAll("[^0-9]", ""));
        Matcher look = Pattern.compile("(a|b)*c").matcher("ababc");
        System.out.println(look.matches() + " " + look.group(1) + " " + look.lookingAt() + " " + look.hitEnd());
        try {
            Pattern.compile("(unclosed");
        } catch (PatternSyntaxException e) {
            System.out.println(e.getMessage());
        }
        try {
            look.reset("x").group();
        } catch (IllegalStateException e) {
            System.out.println(e.getMessage());
        }
        System.out.println(tokens("3 + 4*(12-x)") + " " + Pattern.compile("a.c", Pattern.DOTALL).matcher("a\nc").matches() + " " + Pattern.compile("[\\p{Upper}&&[^AEIOU]]").matcher("AEB").find());
    }

    static List<String> tokens(String s) {
        List<String> out = new ArrayList<>();
        Matcher m = Pattern.compile("\\s*(?:(\\d+)|([a-z]+)|(.))").matcher(s);
        while (m.find()) {
            out.add(m.group(1) != null ? "n" + m.group(1) : m.group(2) != null ? "v" + m.group(2) : m.group(3));
        }
        return out;
    }
}
