/** A solver of small sudokus by trying. */
public class Sudoku {
    private final int[][] g = new int[4][4];
    private int tries;

    Sudoku(String s) {
        for (int i = 0; i < 16; i++) {
            g[i / 4][i % 4] = Character.getNumericValue(s.charAt(i));
        }
    }

    boolean fits(int r, int c, int v) {
        for (int i = 0; i < 4; i++) {
            if (g[r][i] == v || g[i][c] == v || g[r / 2 * 2 + i / 2][c / 2 * 2 + i % 2] == v) {
                return false;
            }
        }
        return true;
    }

    boolean solve(int at) {
        if (at == 16) {
            return true;
        }
        int r = at / 4, c = at % 4;
        if (g[r][c] != 0) {
            return solve(at + 1);
        }
        for (int v = 1; v <= 4; v++) {
            tries++;
            if (fits(r, c, v)) {
                g[r][c] = v;
                if (solve(at + 1)) {
                    return true;
                }
                g[r][c] = 0;
            }
        }
        return false;
    }

    @Override
    public String toString() {
        StringBuilder s = new StringBuilder();
        for (int[] row : g) {
            for (int v : row) {
                s.append(v).append(' ');
            }
            s.setCharAt(s.length() - 1, '\n');
        }
        return s.toString();
    }

    public static void main(String[] args) {
        Sudoku s = new Sudoku("1000030000200004");
        System.out.println(s.solve(0) + " " + s.tries);
        System.out.print(s);
        System.out.println(new Sudoku("1100000000000000").solve(2));
    }
}
