package depot.stock;

/** What a depot holds. */
public class Item {
    static int made;
    public final String name;
    private final int weight;

    public Item(String name, int weight) {
        this.name = name;
        this.weight = weight;
        made++;
    }

    public int weight() {
        return weight;
    }

    public static int made() {
        return made;
    }
}
