/** Arrays of arrays of ints: products, turned ones, determinants, ragged ones, ones of three dimensions and of none. */
public class Matrices {
    static int[][] product(int[][] a, int[][] b) {
        int[][] c = new int[a.length][b[0].length];
        for (int i = 0; i < a.length; i++) {
            for (int j = 0; j < b[0].length; j++) {
                for (int k = 0; k < b.length; k++) c[i][j] += a[i][k] * b[k][j];
            }
        }
        return c;
    }

    static int[][] turned(int[][] a) {
        int[][] c = new int[a[0].length][a.length];
        for (int i = 0; i < a.length; i++) {
            for (int j = 0; j < a[i].length; j++) c[j][i] = a[i][j];
        }
        return c;
    }

    static int[][] power(int[][] a, int exponent) {
        int[][] result = new int[a.length][a.length];
        for (int i = 0; i < a.length; i++) result[i][i] = 1;
        for (; exponent > 0; exponent >>= 1) {
            if ((exponent & 1) != 0) result = product(result, a);
            a = product(a, a);
        }
        return result;
    }

    static int determinant(int[][] a) {
        if (a.length == 0) return 1;
        int sum = 0;
        for (int column = 0; column < a.length; column++) {
            int[][] rest = new int[a.length - 1][a.length - 1];
            for (int i = 1; i < a.length; i++) {
                for (int j = 0; j < a.length; j++) if (j != column) rest[i - 1][j < column ? j : j - 1] = a[i][j];
            }
            int part = a[0][column] * determinant(rest);
            sum += column % 2 == 0 ? part : -part;
        }
        return sum;
    }

    static void print(int[][] a) {
        for (int i = 0; i < a.length; i++) {
            for (int j = 0; j < a[i].length; j++) {
                System.out.print(j == 0 ? "" : " ");
                System.out.print(a[i][j]);
            }
            System.out.println();
        }
    }

    /** Pascal's triangle: each row is as long as its number. */
    static int[][] triangle(int rows) {
        int[][] a = new int[rows][];
        for (int i = 0; i < rows; i++) {
            a[i] = new int[i + 1];
            a[i][0] = a[i][i] = 1;
            for (int j = 1; j < i; j++) a[i][j] = a[i - 1][j - 1] + a[i - 1][j];
        }
        return a;
    }

    static int cube(int side) {
        int[][][] cube = new int[side][side + 1][side + 2];
        for (int i = 0; i < cube.length; i++) {
            for (int j = 0; j < cube[i].length; j++) {
                for (int k = 0; k < cube[i][j].length; k++) cube[i][j][k] = i * j - k;
            }
        }
        int[][] plane = cube[side - 1];
        cube[0] = plane;
        return cube[0][side][side] + cube[1][1][0] + plane[0].length;
    }

    static void none() {
        System.out.println(new int[0][5].length);
        System.out.println(new int[3][0][7][2].length);
        System.out.println(new int[3][0][].length);
        System.out.println(new String[2][3][4][0][1].length);
        Object[][][] outer = new Object[2][][];
        System.out.println(outer[1] == null ? "no rows" : "rows");
    }

    public static void main(String[] words) {
        int[][] a = {{1, 2, 3}, {4, 5, 6}};
        print(product(a, turned(a)));
        print(product(turned(a), a));
        print(power(new int[][] {{1, 1}, {1, 0}}, 46));
        System.out.println(determinant(new int[][] {{2, -1, 0, 3}, {4, 1, 5, -2}, {0, 7, 1, 1}, {3, 3, -6, 8}}));
        print(triangle(7));
        System.out.println(cube(4));
        none();
    }
}
