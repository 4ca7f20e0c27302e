/** Nested loops of int arithmetic. */
public class Loops {
    static final int ROUNDS = 55;

    static int mixed(int rounds) {
        int sum = 1;
        for (int i = 0; i < rounds; i++) {
            for (int j = 0; j < 100; j++) {
                for (int k = 1; k <= 1000; k++) sum = sum * 31 + (i ^ j) - (k >> 3);
            }
        }
        return sum;
    }

    public static void main(String[] words) {
        System.out.println(mixed(ROUNDS));
    }
}
