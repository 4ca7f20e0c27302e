/** Products of matrices of ints, arrays of arrays. */
public class Matrices {
    static final int ROUNDS = 4, SIZE = 100;

    static int[][] filled(int seed) {
        int[][] matrix = new int[SIZE][SIZE];
        for (int i = 0; i < SIZE; i++) {
            for (int j = 0; j < SIZE; j++) matrix[i][j] = seed = seed * 1103515245 + 12345;
        }
        return matrix;
    }

    static int[][] product(int[][] a, int[][] b) {
        int[][] c = new int[a.length][b[0].length];
        for (int i = 0; i < a.length; i++) {
            for (int j = 0; j < b[0].length; j++) {
                int sum = 0;
                for (int k = 0; k < b.length; k++) sum += a[i][k] * b[k][j];
                c[i][j] = sum;
            }
        }
        return c;
    }

    public static void main(String[] words) {
        int[][] matrix = filled(1), other = filled(2);
        for (int round = 0; round < ROUNDS; round++) matrix = product(matrix, other);
        int sum = 0;
        for (int i = 0; i < SIZE; i++) {
            for (int j = 0; j < SIZE; j++) sum = sum * 31 + matrix[i][j];
        }
        System.out.println(sum);
    }
}
