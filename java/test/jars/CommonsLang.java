// classpath: /usr/share/java/commons-lang.jar
import java.util.*;
import org.apache.commons.lang.*;
import org.apache.commons.lang.mutable.*;
import org.apache.commons.lang.text.StrBuilder;
import org.apache.commons.lang.text.StrTokenizer;

/** A driver for the class files of commons-lang 2. */
public class CommonsLang {
    public static void main(String[] args) {
        System.out.println(StringUtils.reverse("abc") + StringUtils.capitalize(" x") + StringUtils.repeat("ab", 3) + StringUtils.center("m", 5, '*') + StringUtils.leftPad("7", 3, '0'));
        System.out.println(StringUtils.isBlank(" ") + " " + StringUtils.isNumeric("12a") + " " + StringUtils.countMatches("banana", "an") + " " + StringUtils.substringBetween("<a>", "<", ">") + " " + StringUtils.abbreviate("a long sentence", 9));
        System.out.println(StringUtils.join(new Object[] {"a", 1, null}, '-') + " " + Arrays.toString(StringUtils.split("a  b c")) + " " + StringUtils.difference("i am", "i be") + " " + StringUtils.getLevenshteinDistance("kitten", "sitting") + " " + StringUtils.swapCase("aBc") + StringUtils.deleteWhitespace(" a b "));
        MutableInt m = new MutableInt(5);
        m.increment();
        m.add(4);
        System.out.println(m + " " + m.intValue() + " " + new MutableInt(10).equals(m));
        System.out.println(new StrBuilder("x").append("y").appendSeparator(",").append(5).reverse() + " " + new StrTokenizer("a,b;c", ',').getTokenList());
        System.out.println(BooleanUtils.toBoolean("yes") + " " + BooleanUtils.toStringOnOff(false) + " " + CharUtils.isAsciiAlpha((char) 97));
        try {
            Validate.isTrue(false, "must be true");
        } catch (IllegalArgumentException e) {
            System.out.println(e.getMessage());
        }
        System.out.println(StringEscapeUtils.escapeJava("a\"b\n\u20ac") + " " + StringEscapeUtils.unescapeJava("\\u0041\\t|") + " " + WordUtils.capitalizeFully("hello wORLD"));
    }
}
