package depot.stock;

/** An item around another. */
public class Crate extends Item {
    private final Item inside;

    public Crate(String name, Item inside) {
        super(name, 10);
        this.inside = inside;
    }

    protected int lid() {
        return made;
    }

    public int weight() {
        return super.weight() + inside.weight();
    }
}
