// Needs: initialisers

/** Static initialisers: when they run, in what order, and what is seen of fields before. */
public class Initialisers {
    static int order;

    static int noted(String what) {
        System.out.print(++order);
        System.out.print(" ");
        System.out.println(what);
        return order;
    }

    static int early = noted("first field of the main class");
    static final int LATE;

    static {
        noted("block of the main class");
        LATE = early + 1;
    }

    static class Above {
        static int a = noted("Above");
    }

    static class Below extends Above implements Plain {
        static int b = noted("Below");
        static final int CONSTANT = 77;

        Below() {
            noted("an object of Below");
        }
    }

    interface Plain {
        int VALUE = noted("the interface, as its field is read");
        int KNOWN = 5;
    }

    /** Two classes of which each wants the other. */
    static class One {
        static int x = Other.y + 1;
    }

    static class Other {
        static int y = One.x + 10;
    }

    /** The constants of a type, as they were made before there were enums; the first sees what isn't set yet. */
    static class Suit {
        private static int next;
        static final Suit CLUBS = new Suit("clubs"), HEARTS = new Suit("hearts");
        static final Suit[] ALL = {CLUBS, HEARTS};
        static final int[] SQUARES = new int[12];
        static int filled = 3;
        final String name;
        final int number = next++ * 10 + filled;

        static {
            for (int i = 0; i < SQUARES.length; i++) SQUARES[i] = i * i + filled;
        }

        private Suit(String name) {
            this.name = name;
        }
    }

    public static void main(String[] words) {
        noted("main");
        Suit[] none = new Suit[3];
        System.out.println(Below.CONSTANT + Plain.KNOWN + none.length);
        System.out.println(Below.a);
        new Below();
        System.out.println(Below.b);
        System.out.println(Plain.VALUE);
        System.out.println(One.x);
        System.out.println(Other.y);
        System.out.println(Suit.SQUARES[11]);
        System.out.println(Suit.ALL[1].name);
        System.out.println(Suit.ALL[1].number + Suit.next);
        System.out.println(LATE);
    }
}
