import java.math.BigInteger;
import java.util.IllegalFormatException;

/** The conversions of String.format for texts and whole numbers. */
public class Formats {
    static void show(String format, Object... arguments) {
        try {
            System.out.println("[" + String.format(format, arguments) + "]");
        } catch (IllegalFormatException e) {
            System.out.println(e.getClass().getSimpleName() + ": " + e.getMessage());
        }
    }

    public static void main(String[] args) {
        show("%d %5d %-5d| %05d %+d %,d %(d % d", 1, 2, 3, 4, 5, 1234567, -6, 7);
        show("%x %X %#x %08x %o %#o", 255, 255, 255, 255, 8, 8);
        show("%x %o %x %x", -1, -1, -1L, (byte) -1);
        show("%s %10s|%-10s|%.2s|%5.1s|%S", "abc", "abc", "abc", "abc", "abc", "abc");
        show("%c %C %5c|%-3c|", 'a', 'b', 'c', 'd');
        show("%c", 65);
        show("%b %B %b %b %5b", true, false, null, "x", true);
        show("%h %H", "hello", "hello");
        show("%2$s %1$s %2$s %<s", "a", "b");
        show("%s %s %1$s %s", "a", "b", "c");
        show("100%% %n");
        show("%s %s", null, new int[0].length);
        show("%d", new BigInteger("123456789012345678901234567890"));
        show("%,d %,d %,d", 999, 1000, -1234567890123L);
        show("%d", "text");
        show("%c", "text");
        show("%s");
        show("%q", 1);
        show("%-d", 1);
        show("%5");
        show("%.2d", 1);
        show("%+s", "a");
        show("%-05d", 1);
        show("%+ d", 1);
        show("%,x", 1);
        show("%#d", 1);
        show("%--5d", 1);
        show("%e", 1);
        show("%f", "a");
        System.out.printf("%-10s|%8d|%n", "name", 42);
        System.out.printf("no arguments%n");
        System.out.println(String.format("|%20s|", "right") + String.format("|%-20s|", "left"));
    }
}
