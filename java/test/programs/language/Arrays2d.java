import java.util.Arrays;

/** Matrices, ragged arrays, spirals, the game of life. */
public class Arrays2d {
    static long[][] multiply(long[][] a, long[][] b) {
        int n = a.length, m = b[0].length, k = b.length;
        long[][] c = new long[n][m];
        for (int i = 0; i < n; i++) {
            for (int j = 0; j < m; j++) {
                for (int x = 0; x < k; x++) {
                    c[i][j] += a[i][x] * b[x][j];
                }
            }
        }
        return c;
    }

    static int[] spiral(int[][] m) {
        int top = 0, bottom = m.length - 1, left = 0, right = m[0].length - 1, n = 0;
        int[] out = new int[m.length * m[0].length];
        while (top <= bottom && left <= right) {
            for (int j = left; j <= right; j++) {
                out[n++] = m[top][j];
            }
            top++;
            for (int i = top; i <= bottom; i++) {
                out[n++] = m[i][right];
            }
            right--;
            for (int j = right; top <= bottom && j >= left; j--) {
                out[n++] = m[bottom][j];
            }
            bottom--;
            for (int i = bottom; left <= right && i >= top; i--) {
                out[n++] = m[i][left];
            }
            left++;
        }
        return out;
    }

    static boolean[][] life(boolean[][] g) {
        int n = g.length;
        boolean[][] next = new boolean[n][n];
        for (int i = 0; i < n; i++) {
            for (int j = 0; j < n; j++) {
                int alive = 0;
                for (int di = -1; di <= 1; di++) {
                    for (int dj = -1; dj <= 1; dj++) {
                        if ((di != 0 || dj != 0) && g[(i + di + n) % n][(j + dj + n) % n]) {
                            alive++;
                        }
                    }
                }
                next[i][j] = alive == 3 || g[i][j] && alive == 2;
            }
        }
        return next;
    }

    public static void main(String[] args) {
        long[][] fib = {{1, 1}, {1, 0}};
        long[][] p = fib;
        for (int i = 0; i < 20; i++) {
            p = multiply(p, fib);
        }
        System.out.println(Arrays.deepToString(p));
        System.out.println(Arrays.toString(spiral(new int[][] {{1, 2, 3, 4}, {5, 6, 7, 8}, {9, 10, 11, 12}})));
        int[][] ragged = new int[4][];
        for (int i = 0; i < 4; i++) {
            ragged[i] = new int[i + 1];
            Arrays.fill(ragged[i], i);
        }
        System.out.println(Arrays.deepToString(ragged) + ragged[3].length);
        boolean[][] g = new boolean[6][6];
        g[0][1] = g[1][2] = g[2][0] = g[2][1] = g[2][2] = true;
        for (int i = 0; i < 4; i++) {
            g = life(g);
        }
        for (boolean[] row : g) {
            StringBuilder s = new StringBuilder();
            for (boolean b : row) {
                s.append(b ? '#' : '.');
            }
            System.out.println(s);
        }
        char[][] board = new char[3][3];
        for (char[] row : board) {
            Arrays.fill(row, '-');
        }
        board[1][1] = 'X';
        board[0][2] = 'O';
        for (char[] row : board) {
            System.out.println(row);
        }
        int[] a = {5, 2, 8, 1};
        int[] b = Arrays.copyOf(a, a.length);
        Arrays.sort(b, 1, 3);
        System.out.println(Arrays.toString(b) + Arrays.equals(a, b) + Arrays.stream(a).max().getAsInt());
        long[] ls = {3, 1, 2};
        char[] cs = "hello".toCharArray();
        byte[] bs = {3, -1, 2};
        String[] ss = {"b", "C", "a"};
        Arrays.sort(ls);
        Arrays.sort(cs);
        Arrays.sort(bs);
        Arrays.sort(ss, String.CASE_INSENSITIVE_ORDER);
        System.out.println(Arrays.toString(ls) + Arrays.toString(cs) + Arrays.toString(bs) + Arrays.toString(ss) + Arrays.hashCode(cs));
        int[] prefix = {1, 2, 3, 4, 5};
        Arrays.setAll(prefix, i -> prefix[i] * i);
        System.out.println(Arrays.toString(prefix) + Arrays.asList(1, 2).indexOf(2));
    }
}
