/** A throw at each hundred instructions or so, caught ten frames up. */
public class Throws {
    static final int ROUNDS = 80000, DEPTH = 10;

    static int descend(int depth, int sum) {
        if (depth > 0) return descend(depth - 1, sum + depth);
        if (sum < 0) return sum;
        throw new IllegalStateException();
    }

    static int caught(int sum) {
        try {
            return descend(DEPTH, sum & 1023);
        } catch (IllegalStateException thrown) {
            return sum * 31 + 1;
        }
    }

    public static void main(String[] words) {
        int sum = 0;
        for (int round = 0; round < ROUNDS; round++) sum = caught(sum);
        System.out.println(sum);
    }
}
