/** A hash table of chained entries that grows, and one of ints that probes the next place. */
public class HashTable {
    static class Key {
        final int row, column;

        Key(int row, int column) {
            this.row = row;
            this.column = column;
        }

        int hash() {
            return 31 * row + column;
        }

        boolean is(Key other) {
            return row == other.row && column == other.column;
        }
    }

    static class Entry {
        final Key key;
        String value;
        Entry next;

        Entry(Key key, String value, Entry next) {
            this.key = key;
            this.value = value;
            this.next = next;
        }
    }

    static class Table {
        private Entry[] chains = new Entry[4];
        private int size;

        private int place(Key key) {
            return (key.hash() & 0x7fffffff) % chains.length;
        }

        private Entry entry(Key key) {
            for (Entry entry = chains[place(key)]; entry != null; entry = entry.next) {
                if (entry.key.is(key)) return entry;
            }
            return null;
        }

        String get(Key key) {
            Entry entry = entry(key);
            return entry == null ? null : entry.value;
        }

        void put(Key key, String value) {
            Entry known = entry(key);
            if (known != null) {
                known.value = value;
                return;
            }
            if (size++ > 2 * chains.length) grow();
            int place = place(key);
            chains[place] = new Entry(key, value, chains[place]);
        }

        boolean remove(Key key) {
            int place = place(key);
            Entry before = null;
            for (Entry entry = chains[place]; entry != null; before = entry, entry = entry.next) {
                if (!entry.key.is(key)) continue;
                if (before == null) chains[place] = entry.next;
                else before.next = entry.next;
                size--;
                return true;
            }
            return false;
        }

        private void grow() {
            Entry[] old = chains;
            chains = new Entry[2 * old.length + 1];
            for (int i = 0; i < old.length; i++) {
                for (Entry entry = old[i], next; entry != null; entry = next) {
                    next = entry.next;
                    int place = place(entry.key);
                    entry.next = chains[place];
                    chains[place] = entry;
                }
            }
        }
    }

    /** The different numbers among those of a generator, kept in places where 0 means free. */
    static int different(int count) {
        int[] places = new int[1024];
        int found = 0;
        int number = 7;
        for (int i = 0; i < count; i++) {
            number = (number * 75 + 74) % 317;
            int place = number * -1640531527 >>> 22;
            while (places[place] != 0 && places[place] != number + 1) place = place + 1 & 1023;
            if (places[place] == 0) found++;
            places[place] = number + 1;
        }
        return found;
    }

    public static void main(String[] words) {
        Table table = new Table();
        for (int row = -3; row <= 3; row++) {
            for (int column = -3; column <= 3; column++) {
                table.put(new Key(row, column), row < column ? "above" : "below");
            }
        }
        for (int i = -3; i <= 3; i++) table.put(new Key(i, i), "diagonal");
        System.out.println(table.size);
        System.out.println(table.get(new Key(-2, 3)));
        System.out.println(table.get(new Key(3, -2)));
        System.out.println(table.get(new Key(1, 1)));
        System.out.println(table.get(new Key(4, 0)));
        System.out.println(table.remove(new Key(1, 1)) ? "removed" : "not there");
        System.out.println(table.remove(new Key(1, 1)) ? "removed" : "not there");
        System.out.println(table.get(new Key(1, 1)));
        System.out.println(table.size);
        System.out.println(table.chains.length);
        System.out.println(different(500));
    }
}
