/** Classes within classes: members, local ones, ones without a name, and what they share with those around them. */
public class Inner {
    private int total = 100;
    private static int made;

    interface Source {
        boolean hasNext();

        int next();
    }

    /** Reads and changes what its outer object keeps to itself. */
    class Account {
        private final int step;

        Account(int step) {
            this.step = step;
            made++;
        }

        int draw() {
            total -= step;
            return total;
        }
    }

    Account account(int step) {
        return new Account(step);
    }

    /** A local class that keeps the values of what stands around it. */
    static Source range(final int from, final int to) {
        class Range implements Source {
            private int at = from;

            public boolean hasNext() {
                return at < to;
            }

            public int next() {
                return at++;
            }
        }
        return new Range();
    }

    /** Two classes without names, one within the other. */
    static Source only(final Source source, final int divisor) {
        return new Source() {
            private boolean waiting;
            private int kept;

            public boolean hasNext() {
                while (!waiting && source.hasNext()) {
                    kept = source.next();
                    waiting = kept % divisor == 0;
                }
                return waiting;
            }

            public int next() {
                hasNext();
                waiting = false;
                return kept;
            }
        };
    }

    public static void main(String[] words) {
        Inner inner = new Inner();
        Account five = inner.account(5);
        Account seven = inner.account(7);
        System.out.println(five.draw());
        System.out.println(seven.draw());
        System.out.println(five.draw());
        System.out.println(inner.total);
        System.out.println(made * 1000 + seven.step);
        for (Source source = only(range(1, 30), 7); source.hasNext();) System.out.println(source.next());
        System.out.println(made);
    }
}
