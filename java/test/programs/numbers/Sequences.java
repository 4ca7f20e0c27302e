import java.util.*;
import java.util.stream.*;

/** Perfect numbers, Pascal's triangle, Collatz, happy numbers, digits of e. */
public class Sequences {
    static int digitSquares(int n) {
        int s = 0;
        for (; n > 0; n /= 10) {
            s += n % 10 * (n % 10);
        }
        return s;
    }

    static boolean happy(int n) {
        Set<Integer> seen = new HashSet<>();
        while (n != 1 && seen.add(n)) {
            n = digitSquares(n);
        }
        return n == 1;
    }

    public static void main(String[] args) {
        System.out.println(IntStream.rangeClosed(2, 500).filter(n -> IntStream.rangeClosed(1, n / 2).filter(d -> n % d == 0).sum() == n).boxed().collect(Collectors.toList()));
        int[] row = {1};
        for (int i = 0; i < 6; i++) {
            System.out.println(Arrays.toString(row));
            int[] next = new int[row.length + 1];
            for (int j = 0; j < next.length; j++) {
                next[j] = (j > 0 ? row[j - 1] : 0) + (j < row.length ? row[j] : 0);
            }
            row = next;
        }
        int best = 0, length = 0;
        for (int n = 1; n < 60; n++) {
            int steps = 1;
            for (long x = n; x != 1; x = x % 2 == 0 ? x / 2 : 3 * x + 1) {
                steps++;
            }
            if (steps > length) {
                length = steps;
                best = n;
            }
        }
        System.out.println(best + " " + length);
        System.out.println(IntStream.range(1, 40).filter(Sequences::happy).mapToObj(Integer::toString).collect(Collectors.joining(" ")));
        int digits = 15;
        int[] a = new int[digits + 9];
        Arrays.fill(a, 1);
        StringBuilder e = new StringBuilder("2.");
        for (int d = 0; d < digits; d++) {
            int carry = 0;
            for (int i = a.length - 1; i >= 0; i--) {
                int x = a[i] * 10 + carry;
                a[i] = x % (i + 2);
                carry = x / (i + 2);
            }
            e.append(carry);
        }
        System.out.println(e);
        Iterator<Long> triangular = Stream.iterate(new long[] {1, 2}, p -> new long[] {p[0] + p[1], p[1] + 1}).map(p -> p[0]).iterator();
        for (int i = 0; i < 8; i++) {
            System.out.print(triangular.next() + " ");
        }
        System.out.println();
        Random r = new Random(12345);
        int[] counts = new int[6];
        for (int i = 0; i < 60; i++) {
            counts[r.nextInt(6)]++;
        }
        byte[] bytes = new byte[5];
        r.nextBytes(bytes);
        System.out.println(Arrays.toString(counts) + Arrays.toString(bytes) + r.nextLong() + r.nextBoolean() + r.ints(3, -5, 5).sum());
    }
}
