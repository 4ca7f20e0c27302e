/** Arithmetic of all whole types, shifts, compound assignment, promotion, order of evaluation. */
public class Operators {
    static StringBuilder trace = new StringBuilder();

    static int note(int n) {
        trace.append(n).append(' ');
        return n;
    }

    static boolean is(boolean b, String name) {
        trace.append(name).append(' ');
        return b;
    }

    public static void main(String[] args) {
        int i = Integer.MAX_VALUE;
        i++;
        long l = Integer.MAX_VALUE + 1;
        long m = Integer.MAX_VALUE + 1L;
        System.out.println(i + " " + l + " " + m + " " + (byte) 300 + " " + (short) -40000 + " " + (char) 97 + " " + (int) 'z' + " " + (int) 5000000000L);
        System.out.println(-7 / 2 + " " + -7 % 2 + " " + (-7 >> 1) + " " + (-7 >>> 30) + " " + (1 << 35) + " " + (1L << 35) + " " + (5 & 3) + (5 | 3) + (5 ^ 3) + ~5);
        byte b = 10;
        b += 300;
        b >>= 1;
        short s = (short) (b * b);
        char c = 'a';
        c += 2;
        i = 5;
        i = i++ + ++i;
        int j = i-- - --i;
        System.out.println(b + " " + s + " " + c + " " + i + " " + j);
        int[] a = {0, 0, 0};
        int k = 0;
        a[k++] = k++;
        a[k] = k = 1;
        System.out.println(a[0] + " " + a[1] + " " + a[2] + " " + k);
        int r = note(1) + note(2) * note(3) - (note(4) << note(1));
        boolean q = is(false, "x") && is(true, "y") || is(true, "z") & is(false, "w") | is(true, "v");
        System.out.println(r + " " + q + " " + trace);
        long big = 1L << 62;
        System.out.println(big * 4 + " " + (big + big) + " " + Long.MIN_VALUE / -1 + " " + (int) (big >>> 40) + " " + (0x7fL ^ -1L));
        System.out.println(1 + 2 + "3" + 4 + 5 + 'c' + (char) ('c' + 1) + ('c' + 1) + null + true + 7L);
        String t = "x";
        t += 1 + 2;
        t += 'y';
        t += null;
        System.out.println(t + " " + (t == t + "") + " " + (5 > 3 ? "yes" : "no") + " " + (char) (true ? 'b' : 0));
        System.out.println(0b1011 + " " + 0x1F + " " + 017 + " " + 1_000_000 + " " + 'A' + '\u0042' + " " + (byte) 0x80 + " " + 0xFFFFFFFF);
        final int x = 10;
        byte fits = x;
        System.out.println(fits + (x > 5 ? 1 : 0) + " " + (5 == 5L) + " " + ('a' < 98));
    }
}
