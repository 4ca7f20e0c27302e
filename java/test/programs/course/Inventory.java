import java.util.*;
import java.util.function.Predicate;

/** An inventory with items, orders and reports. */
public class Inventory {
    enum Kind { TOOL, TOY, FOOD }

    static class Item implements Comparable<Item> {
        final String name;
        final Kind kind;
        final int cents;
        private int stock;

        Item(String name, Kind kind, int cents, int stock) {
            this.name = Objects.requireNonNull(name, "name");
            this.kind = kind;
            this.cents = cents;
            this.stock = stock;
        }

        @Override
        public int compareTo(Item o) {
            return name.compareTo(o.name);
        }

        @Override
        public boolean equals(Object o) {
            return o instanceof Item && name.equals(((Item) o).name);
        }

        @Override
        public int hashCode() {
            return name.hashCode();
        }

        @Override
        public String toString() {
            return name + "*" + stock;
        }
    }

    static class OutOfStock extends RuntimeException {
        OutOfStock(Item i, int wanted) {
            super(String.format("%s: wanted %d, has %d", i.name, wanted, i.stock));
        }
    }

    private final Map<String, Item> items = new TreeMap<>(String.CASE_INSENSITIVE_ORDER);
    private final Map<Kind, Integer> sold = new EnumMap<>(Kind.class);

    Inventory add(Item i) {
        items.merge(i.name, i, (a, b) -> {
            a.stock += b.stock;
            return a;
        });
        return this;
    }

    int sell(String name, int n) {
        Item i = items.get(name);
        if (i == null) {
            throw new NoSuchElementException("no " + name);
        }
        if (i.stock < n) {
            throw new OutOfStock(i, n);
        }
        i.stock -= n;
        sold.merge(i.kind, n * i.cents, Integer::sum);
        return n * i.cents;
    }

    List<Item> find(Predicate<? super Item> p) {
        List<Item> found = new ArrayList<>(items.values());
        found.removeIf(p.negate());
        return found;
    }

    static String money(long cents) {
        return String.format("$%,d.%02d", cents / 100, cents % 100);
    }

    public static void main(String[] args) {
        Inventory inv = new Inventory().add(new Item("hammer", Kind.TOOL, 1599, 10)).add(new Item("Ball", Kind.TOY, 350, 3)).add(new Item("apple", Kind.FOOD, 45, 200)).add(new Item("ball", Kind.TOY, 350, 4));
        System.out.println(inv.items.values() + " " + money(inv.sell("HAMMER", 2)) + " " + money(inv.sell("apple", 150)));
        for (String order : new String[] {"ball:9", "saw:1", "apple:x", "apple:50"}) {
            String[] p = order.split(":");
            try {
                System.out.println(order + " " + money(inv.sell(p[0], Integer.parseInt(p[1]))));
            } catch (OutOfStock | NoSuchElementException e) {
                System.out.println(e.getMessage());
            } catch (NumberFormatException e) {
                System.out.println("bad order: " + e.getMessage());
            }
        }
        System.out.println(inv.find(i -> i.stock == 0) + " " + inv.find(i -> i.kind == Kind.TOY && i.stock > 5) + " " + inv.sold);
        long worth = 0;
        for (Item i : inv.items.values()) {
            worth += (long) i.cents * i.stock;
        }
        System.out.println(money(worth) + " " + money(1234567890));
    }
}
