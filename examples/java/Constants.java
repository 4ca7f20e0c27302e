// Apart: the class Constants is compiled while its values aren't final, so that it reads them as it runs.

/** Static fields whose first values stand in the class file, of each type that has such, read from another class. */
public class Constants {
    static class Values {
        static final int LEAST = -2147483648;
        static final int SMALL = 7;
        static final byte TINY = -128;
        static final short SHORT = -32768;
        static final char LETTER = '\uffff';
        static final long LONG = -9223372036854775808L;
        static final boolean YES = true, NO = false;
        static final String TEXT = "a constant text", EMPTY = "";
        static int counter;
    }

    static class Below extends Values {
        static final String OWN = "a constant text";
    }

    public static void main(String[] words) {
        System.out.println(Values.LEAST);
        System.out.println(Values.SMALL);
        System.out.println(Values.TINY);
        System.out.println(Values.SHORT);
        System.out.println(Values.LETTER + 0);
        System.out.println(Values.LONG);
        System.out.println(Values.YES ? "yes" : "no");
        System.out.println(Values.NO ? "yes" : "no");
        System.out.println(Values.TEXT);
        System.out.println(Values.EMPTY);
        System.out.println(Values.TEXT == Below.OWN ? "one text" : "two texts");
        System.out.println(Below.TEXT == "a constant text" ? "one text" : "two texts");
        Values.counter = 3;
        System.out.println(Below.counter + Below.SMALL);
    }
}
