/** Queens that don't attack each other: the ways, counted by bits, and the first one, found by trying. */
public class Queens {
    static int ways(int all, int columns, int left, int right) {
        if (columns == all) return 1;
        int count = 0;
        for (int free = all & ~(columns | left | right); free != 0; free &= free - 1) {
            int bit = free & -free;
            count += ways(all, columns | bit, (left | bit) << 1, (right | bit) >>> 1);
        }
        return count;
    }

    static boolean fits(byte[] columns, int row) {
        for (int other = 0; other < row; other++) {
            int apart = columns[row] - columns[other];
            if (apart == 0 || apart == row - other || apart == other - row) return false;
        }
        return true;
    }

    static boolean found(byte[] columns, int row) {
        if (row == columns.length) return true;
        for (columns[row] = 0; columns[row] < columns.length; columns[row]++) {
            if (fits(columns, row) && found(columns, row + 1)) return true;
        }
        return false;
    }

    public static void main(String[] words) {
        for (int size = 1; size <= 7; size++) System.out.println(ways((1 << size) - 1, 0, 0, 0));
        byte[] columns = new byte[6];
        System.out.println(found(columns, 0) ? "found" : "none");
        for (int row = 0; row < columns.length; row++) {
            for (int column = 0; column < columns.length; column++) {
                System.out.print(columns[row] == column ? "Q" : "-");
            }
            System.out.println();
        }
        System.out.println(found(new byte[3], 0) ? "found" : "none");
    }
}
