/** A linear congruential generator and sums of squares, all in longs. */
public class Longs {
    static final int ROUNDS = 2600;
    static final long LENGTH = 1000;

    static long generated(long state) {
        for (long i = 0; i < LENGTH; i++) state = state * 6364136223846793005L + 1442695040888963407L;
        return state;
    }

    static long squares(long first) {
        long sum = 0;
        for (long i = first; i < first + LENGTH; i++) sum += i * i;
        return sum;
    }

    public static void main(String[] words) {
        long sum = 1;
        for (int round = 0; round < ROUNDS; round++) sum = generated(sum) ^ squares(sum >>> 32);
        System.out.println(sum);
    }
}
