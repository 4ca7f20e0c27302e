/** try-with-resources: order of closing, suppressed exceptions. */
public class Resources {
    static class Door implements AutoCloseable {
        private final String name;
        private final boolean stuck;

        Door(String name, boolean stuck) {
            this.name = name;
            this.stuck = stuck;
            System.out.println("open " + name);
        }

        @Override
        public void close() throws Exception {
            System.out.println("close " + name);
            if (stuck) {
                throw new Exception(name + " is stuck");
            }
        }
    }

    public static void main(String[] args) throws Exception {
        try (Door a = new Door("a", false); Door b = new Door("b", false)) {
            System.out.println("inside " + a.name + b.name);
        }
        try (Door a = new Door("c", true); Door b = new Door("d", true)) {
            throw new IllegalStateException("fire");
        } catch (Exception e) {
            System.out.println(e.getMessage());
            for (Throwable s : e.getSuppressed()) {
                System.out.println("suppressed " + s.getMessage());
            }
        } finally {
            System.out.println("done");
        }
        try (Door e = new Door("e", true)) {
            System.out.println("fine");
        } catch (Exception e) {
            System.out.println("from close: " + e.getMessage() + " " + e.getSuppressed().length);
        }
        try (Door none = null) {
            System.out.println("null is closed quietly");
        }
        System.out.println(result());
    }

    @SuppressWarnings("finally")
    static int result() {
        try {
            throw new RuntimeException("lost");
        } finally {
            return 3;
        }
    }
}
