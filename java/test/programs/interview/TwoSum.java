import java.util.*;
import java.util.stream.*;

/** Short interview problems on arrays and texts. */
public class TwoSum {
    static int[] twoSum(int[] a, int target) {
        Map<Integer, Integer> seen = new HashMap<>();
        for (int i = 0; i < a.length; i++) {
            Integer j = seen.get(target - a[i]);
            if (j != null) {
                return new int[] {j, i};
            }
            seen.put(a[i], i);
        }
        return new int[0];
    }

    static List<List<String>> anagrams(String... words) {
        return new ArrayList<>(Arrays.stream(words).collect(Collectors.groupingBy(w -> {
            char[] c = w.toCharArray();
            Arrays.sort(c);
            return new String(c);
        }, LinkedHashMap::new, Collectors.toList())).values());
    }

    static int longestUnique(String s) {
        Map<Character, Integer> last = new HashMap<>();
        int best = 0;
        for (int i = 0, from = 0; i < s.length(); i++) {
            from = Math.max(from, last.getOrDefault(s.charAt(i), -1) + 1);
            last.put(s.charAt(i), i);
            best = Math.max(best, i - from + 1);
        }
        return best;
    }

    static int maxSubarray(int[] a) {
        int best = a[0], here = 0;
        for (int x : a) {
            here = Math.max(x, here + x);
            best = Math.max(best, here);
        }
        return best;
    }

    static String longestPalindrome(String s) {
        String best = "";
        for (int c = 0; c < s.length(); c++) {
            for (int odd = 0; odd < 2; odd++) {
                int l = c, r = c + odd;
                while (l >= 0 && r < s.length() && s.charAt(l) == s.charAt(r)) {
                    l--;
                    r++;
                }
                if (r - l - 1 > best.length()) {
                    best = s.substring(l + 1, r);
                }
            }
        }
        return best;
    }

    static String roman(int n) {
        int[] v = {1000, 900, 500, 400, 100, 90, 50, 40, 10, 9, 5, 4, 1};
        String[] s = "M CM D CD C XC L XL X IX V IV I".split(" ");
        StringBuilder b = new StringBuilder();
        for (int i = 0; i < v.length; i++) {
            for (; n >= v[i]; n -= v[i]) {
                b.append(s[i]);
            }
        }
        return b.toString();
    }

    static String compress(String s) {
        StringBuilder b = new StringBuilder();
        for (int i = 0, j; i < s.length(); i = j) {
            for (j = i; j < s.length() && s.charAt(j) == s.charAt(i); j++) {
            }
            b.append(s.charAt(i)).append(j - i);
        }
        return b.length() < s.length() ? b.toString() : s;
    }

    static int lcs(String a, String b) {
        int[][] t = new int[a.length() + 1][b.length() + 1];
        for (int i = 1; i <= a.length(); i++) {
            for (int j = 1; j <= b.length(); j++) {
                t[i][j] = a.charAt(i - 1) == b.charAt(j - 1) ? t[i - 1][j - 1] + 1 : Math.max(t[i - 1][j], t[i][j - 1]);
            }
        }
        return t[a.length()][b.length()];
    }

    static List<String> parentheses(int n) {
        List<String> out = new ArrayList<>();
        build(out, "", n, n);
        return out;
    }

    private static void build(List<String> out, String s, int open, int close) {
        if (close == 0) {
            out.add(s);
        }
        if (open > 0) {
            build(out, s + "(", open - 1, close);
        }
        if (close > open) {
            build(out, s + ")", open, close - 1);
        }
    }

    public static void main(String[] args) {
        System.out.println(Arrays.toString(twoSum(new int[] {2, 7, 11, 15}, 26)) + Arrays.toString(twoSum(new int[] {1}, 5)));
        System.out.println(anagrams("eat", "tea", "tan", "ate", "nat", "bat"));
        System.out.println(longestUnique("abcabcbb") + " " + longestUnique("bbbb") + " " + maxSubarray(new int[] {-2, 1, -3, 4, -1, 2, 1, -5, 4}));
        System.out.println(longestPalindrome("forgeeksskeegfor") + " " + roman(1994) + " " + compress("aabcccccaaa") + " " + compress("abc"));
        System.out.println(lcs("AGGTAB", "GXTXAYB") + " " + parentheses(3));
        System.out.println("swiss".chars().mapToObj(c -> (char) c).collect(Collectors.groupingBy(c -> c, LinkedHashMap::new, Collectors.counting())).entrySet().stream().filter(e -> e.getValue() == 1).map(Map.Entry::getKey).findFirst().get());
    }
}
