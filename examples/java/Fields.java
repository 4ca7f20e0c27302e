/** Fields: static and not, narrow ones, of one name in several classes, inherited ones, and what they hold at first. */
public class Fields {
    static int count;
    static String text;
    static boolean flag;

    static class Narrow {
        byte tiny;
        short small;
        char letter;
        boolean flag;
        int wide;
        Object thing;
    }

    static class Above {
        static int shared;
        int x = 1;
        private int hidden = 10;

        int hidden() {
            return hidden;
        }
    }

    static class Below extends Above {
        int x = 2;
        private int hidden = 20;

        int both() {
            return 100 * x + super.x;
        }

        int hiddenHere() {
            return hidden + super.hidden();
        }
    }

    static void first() {
        Narrow narrow = new Narrow();
        System.out.println(narrow.tiny + narrow.small + narrow.letter + narrow.wide);
        System.out.println(narrow.flag || flag ? "set" : "not set");
        System.out.println(narrow.thing == null && text == null ? "null" : "not null");
        System.out.println(count);
    }

    static void narrow() {
        Narrow narrow = new Narrow();
        narrow.tiny = (byte) 200;
        narrow.small = (short) 40000;
        narrow.letter = (char) -1;
        narrow.flag = narrow.tiny < 0;
        narrow.wide = narrow.letter;
        narrow.tiny += 100;
        narrow.small++;
        narrow.letter++;
        narrow.thing = narrow;
        System.out.println(narrow.tiny);
        System.out.println(narrow.small);
        System.out.println(narrow.letter + 0);
        System.out.println(narrow.wide);
        System.out.println(((Narrow) narrow.thing).flag ? "set" : "not set");
    }

    static void shadowed() {
        Below below = new Below();
        Above above = below;
        System.out.println(below.both());
        System.out.println(above.x);
        above.x = 7;
        below.x = 8;
        System.out.println(below.both());
        System.out.println(below.hiddenHere());
    }

    static void inherited() {
        Below.shared += 5;
        Below.shared *= 3;
        System.out.println(Above.shared);
    }

    public static void main(String[] words) {
        first();
        narrow();
        shadowed();
        inherited();
        count++;
        flag = count == 1;
        text = flag ? "once" : "more";
        System.out.println(text);
    }
}
