/** StringBuilder and StringBuffer. */
public class Builders {
    interface Step {
        void run() throws Exception;
    }

    static void attempt(Step step) {
        try {
            step.run();
        } catch (Exception e) {
            System.out.println(e.getClass().getName() + ": " + e.getMessage());
        }
    }

    public static void main(String[] args) {
        StringBuilder b = new StringBuilder("hello");
        b.append(' ').append("world").append(1).append(2L).append(true).append('c').append((Object) null).append(new char[] {'x'});
        System.out.println(b + " " + b.length());
        b.insert(0, "[").insert(b.length(), ']').insert(1, 42).insert(1, true).insert(1, 7L);
        System.out.println(b);
        b.delete(1, 3).deleteCharAt(0).replace(0, 3, "R").reverse();
        System.out.println(b);
        b.setLength(5);
        b.setCharAt(0, 'Z');
        System.out.println(b + " " + b.charAt(1) + " " + b.indexOf("l") + " " + b.lastIndexOf("n") + " " + b.substring(2) + " " + b.substring(1, 3));
        System.out.println(new StringBuilder("abc").append("defgh", 1, 3).append("xyz".toCharArray(), 1, 2).appendCodePoint(0x41));
        System.out.println(new StringBuilder().append(-123).append(Integer.MIN_VALUE).append(Long.MIN_VALUE).append(Long.MAX_VALUE));
        System.out.println(new StringBuilder("a").equals(new StringBuilder("a")));
        attempt(() -> new StringBuilder("abc").charAt(3));
        attempt(() -> new StringBuilder("abc").deleteCharAt(5));
        attempt(() -> new StringBuilder("abc").insert(4, "x"));
        attempt(() -> new StringBuilder("abc").substring(2, 1));
        attempt(() -> new StringBuilder("abc").delete(2, 1));
        attempt(() -> new StringBuilder("abc").setLength(-1));
        attempt(() -> "abc".substring(4));
        attempt(() -> "abc".substring(-1));
        attempt(() -> "abc".substring(2, 1));
        attempt(() -> "abc".charAt(5));
        StringBuffer f = new StringBuffer();
        for (int i = 0; i < 5; i++) {
            f.append(i).append(i < 4 ? "," : "");
        }
        System.out.println(f.reverse() + " " + f.length() + " " + f.indexOf("2") + " " + f.insert(0, "x"));
        String triangle = "";
        for (int i = 1; i <= 4; i++) {
            for (int j = 0; j < i; j++) {
                triangle += "*";
            }
            triangle += "\n";
        }
        System.out.print(triangle);
        System.out.println(isPalindrome("A man, a plan, a canal: Panama") + " " + isPalindrome("jvm"));
    }

    static boolean isPalindrome(String s) {
        StringBuilder kept = new StringBuilder();
        for (char c : s.toCharArray()) {
            if (Character.isLetterOrDigit(c)) {
                kept.append(Character.toLowerCase(c));
            }
        }
        return kept.toString().equals(kept.reverse().toString());
    }
}
