/** Conway's game of life on a torus of booleans: a glider on its way. */
public class Life {
    private boolean[][] cells;

    Life(int height, int width) {
        cells = new boolean[height][width];
    }

    void set(int row, int column) {
        cells[row][column] = true;
    }

    private int neighbours(int row, int column) {
        int height = cells.length, width = cells[0].length;
        int count = 0;
        for (int down = -1; down <= 1; down++) {
            for (int right = -1; right <= 1; right++) {
                if (down == 0 && right == 0) continue;
                if (cells[(row + down + height) % height][(column + right + width) % width]) count++;
            }
        }
        return count;
    }

    void step() {
        boolean[][] next = new boolean[cells.length][cells[0].length];
        for (int row = 0; row < cells.length; row++) {
            for (int column = 0; column < cells[row].length; column++) {
                int count = neighbours(row, column);
                next[row][column] = count == 3 | cells[row][column] & count == 2;
            }
        }
        cells = next;
    }

    void print() {
        for (int row = 0; row < cells.length; row++) {
            for (int column = 0; column < cells[row].length; column++) System.out.print(cells[row][column] ? "#" : ".");
            System.out.println();
        }
        System.out.println();
    }

    public static void main(String[] words) {
        Life life = new Life(6, 7);
        life.set(0, 1);
        life.set(1, 2);
        life.set(2, 0);
        life.set(2, 1);
        life.set(2, 2);
        life.print();
        for (int generation = 1; generation <= 24; generation++) {
            life.step();
            if (generation % 8 == 0) life.print();
        }
    }
}
