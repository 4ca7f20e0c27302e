import java.util.*;

/** Hanoi, permutations, queens, subsets, Ackermann, memoised Fibonacci. */
public class Recursion {
    static int moves;

    static void hanoi(int n, char from, char to, char via) {
        if (n == 0) {
            return;
        }
        hanoi(n - 1, from, via, to);
        moves++;
        if (n == 3) {
            System.out.println("disk 3 " + from + " -> " + to);
        }
        hanoi(n - 1, via, to, from);
    }

    static void permute(String rest, String done, List<String> out) {
        if (rest.isEmpty()) {
            out.add(done);
        }
        for (int i = 0; i < rest.length(); i++) {
            permute(rest.substring(0, i) + rest.substring(i + 1), done + rest.charAt(i), out);
        }
    }

    static int queens(int n, int row, int[] at) {
        if (row == n) {
            return 1;
        }
        int found = 0;
        next:
        for (int c = 0; c < n; c++) {
            for (int r = 0; r < row; r++) {
                if (at[r] == c || Math.abs(at[r] - c) == row - r) {
                    continue next;
                }
            }
            at[row] = c;
            found += queens(n, row + 1, at);
        }
        return found;
    }

    static int ackermann(int m, int n) {
        return m == 0 ? n + 1 : n == 0 ? ackermann(m - 1, 1) : ackermann(m - 1, ackermann(m, n - 1));
    }

    static final Map<Integer, Long> MEMO = new HashMap<>();

    static long fib(int n) {
        if (n < 2) {
            return n;
        }
        Long known = MEMO.get(n);
        if (known != null) {
            return known;
        }
        long f = fib(n - 1) + fib(n - 2);
        MEMO.put(n, f);
        return f;
    }

    static boolean even(int n) {
        return n == 0 || odd(n - 1);
    }

    static boolean odd(int n) {
        return n != 0 && even(n - 1);
    }

    static String binary(int n) {
        return n < 2 ? "" + n : binary(n / 2) + n % 2;
    }

    static int change(int amount, int[] coins, int i) {
        return amount == 0 ? 1 : amount < 0 || i == coins.length ? 0 : change(amount - coins[i], coins, i) + change(amount, coins, i + 1);
    }

    public static void main(String[] args) {
        hanoi(5, 'A', 'C', 'B');
        System.out.println(moves);
        List<String> all = new ArrayList<>();
        permute("abcd", "", all);
        System.out.println(all.size() + " " + all.get(0) + " " + all.get(23));
        System.out.println(queens(5, 0, new int[5]) + " " + ackermann(2, 3) + " " + fib(80) + " " + even(30) + " " + binary(37) + " " + change(50, new int[] {25, 10, 5, 1}, 0));
        List<List<Integer>> subsets = new ArrayList<>();
        for (int mask = 0; mask < 8; mask++) {
            List<Integer> s = new ArrayList<>();
            for (int b = 0; b < 3; b++) {
                if ((mask >> b & 1) == 1) {
                    s.add(b + 1);
                }
            }
            subsets.add(s);
        }
        System.out.println(subsets);
    }
}
