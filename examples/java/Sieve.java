/** Primes by a sieve over booleans, and least divisors by one over ints. */
public class Sieve {
    static boolean[] sieve(int end) {
        boolean[] composite = new boolean[end];
        for (int i = 2; i * i < end; i++) {
            if (composite[i]) continue;
            for (int j = i * i; j < end; j += i) composite[j] = true;
        }
        return composite;
    }

    static int[] leastDivisors(int end) {
        int[] least = new int[end];
        for (int i = 2; i < end; i++) {
            for (int j = i; j < end; j += i) if (least[j] == 0) least[j] = i;
        }
        return least;
    }

    static void factors(int n, int[] least) {
        System.out.print(n);
        System.out.print(" =");
        for (String sign = " "; n > 1; n /= least[n], sign = " * ") {
            System.out.print(sign);
            System.out.print(least[n]);
        }
        System.out.println();
    }

    public static void main(String[] words) {
        int end = 2000;
        boolean[] composite = sieve(end);
        int count = 0, last = 0, twins = 0;
        for (int i = 2; i < end; i++) {
            if (composite[i]) continue;
            count++;
            if (i - last == 2) twins++;
            last = i;
        }
        System.out.println(count);
        System.out.println(last);
        System.out.println(twins);
        int[] least = leastDivisors(end);
        factors(360, least);
        factors(1001, least);
        factors(1999, least);
        int same = 0;
        for (int i = 2; i < end; i++) if (composite[i] == (least[i] != i)) same++;
        System.out.println(same);
    }
}
