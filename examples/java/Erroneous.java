// Needs: exceptions, initialisers

/** Classes whose initialisers fail: the first use throws an ExceptionInInitializerError, or the error itself, later uses a
 *  NoClassDefFoundError. */
public class Erroneous {
    static int zero;

    static class Divides {
        static int x = 1 / zero;
        static int y = 5;
    }

    static class Below extends Divides {
        static int z = 7;
    }

    static class Throws {
        static {
            if (zero == 0) throw new Error("an error of its own");
        }

        static void call() {}
    }

    static void use(int way) {
        switch (way) {
            case 0: System.out.println(Divides.x); break;
            case 1: System.out.println(Divides.y); break;
            case 2: new Divides(); break;
            case 3: Below.z++; break;
            case 4: new Below(); break;
            case 5: Throws.call(); break;
            default: Throws.call(); break;
        }
    }

    public static void main(String[] words) {
        for (int way = 0; way < 7; way++) {
            try {
                use(way);
                System.out.println("used");
            } catch (ExceptionInInitializerError error) {
                System.out.println("failed as it was initialised");
            } catch (NoClassDefFoundError error) {
                System.out.println("failed before");
            } catch (Error error) {
                System.out.println(error.getMessage());
            }
        }
    }
}
