package depot;

import depot.stock.Crate;
import depot.stock.Item;

/** Packages: classes with a path before their names, and members that only their package or the classes below see. */
public class Depot {
    private final Item[] items = new Item[4];
    private int used;

    void take(Item item) {
        items[used++] = item;
    }

    int weight() {
        int weight = 0;
        for (int i = 0; i < used; i++) weight += items[i].weight();
        return weight;
    }

    /** A crate that this package makes, and whose lid the package `stock` gives. */
    static class Sealed extends Crate {
        Sealed(Item inside) {
            super("sealed crate", inside);
        }

        public int weight() {
            return super.weight() + lid();
        }
    }

    public static void main(String[] words) {
        Depot depot = new Depot();
        depot.take(new Item("anvil", 80));
        depot.take(new Crate("crate", new Item("feather", 1)));
        depot.take(new Sealed(new Crate("crate in it", new Item("lead", 300))));
        for (int i = 0; i < depot.used; i++) System.out.println(depot.items[i].name);
        System.out.println(depot.weight());
        System.out.println(Item.made());
    }
}
