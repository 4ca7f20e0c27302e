/** Primes by a sieve over booleans, and least divisors over ints. */
public class Sieve {
    static final int ROUNDS = 3, END = 300000;

    static void cross(boolean[] composite) {
        for (int i = 2; i * i < composite.length; i++) {
            if (composite[i]) continue;
            for (int j = i * i; j < composite.length; j += i) composite[j] = true;
        }
    }

    static void divide(boolean[] composite, int[] least) {
        for (int i = least.length - 1; i > 1; i--) least[i] = i;
        for (int i = 2; i * i < least.length; i++) {
            if (composite[i]) continue;
            for (int j = i * i; j < least.length; j += i) {
                if (least[j] > i) least[j] = i;
            }
        }
    }

    static int sum(boolean[] composite, int[] least) {
        int sum = 0;
        for (int i = 2; i < least.length; i++) {
            if (!composite[i]) sum++;
            else sum ^= least[i];
            composite[i] = false;
        }
        return sum;
    }

    public static void main(String[] words) {
        boolean[] composite = new boolean[END];
        int[] least = new int[END];
        int sum = 0;
        for (int round = 0; round < ROUNDS; round++) {
            cross(composite);
            divide(composite, least);
            sum = sum * 7 + sum(composite, least);
        }
        System.out.println(sum);
    }
}
