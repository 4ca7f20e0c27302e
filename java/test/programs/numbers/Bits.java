/** Tricks with bits, overflow and radices. */
public class Bits {
    static String padded(int n) {
        StringBuilder b = new StringBuilder(Integer.toBinaryString(n));
        while (b.length() < 8) {
            b.insert(0, '0');
        }
        return b.toString();
    }

    static boolean power(int n) {
        return n > 0 && (n & n - 1) == 0;
    }

    static int parity(long n) {
        n ^= n >>> 32;
        n ^= n >>> 16;
        n ^= n >>> 8;
        n ^= n >>> 4;
        n ^= n >>> 2;
        n ^= n >>> 1;
        return (int) n & 1;
    }

    static int crc(String s) {
        int c = -1;
        for (char ch : s.toCharArray()) {
            c ^= ch;
            for (int i = 0; i < 8; i++) {
                c = (c & 1) == 0 ? c >>> 1 : c >>> 1 ^ 0xEDB88320;
            }
        }
        return ~c;
    }

    public static void main(String[] args) {
        System.out.println(padded(37) + " " + padded(37 << 1) + " " + padded(37 & 15) + " " + padded(37 | 64) + " " + padded(37 ^ 255) + " " + (~37));
        int mask = 0;
        for (int bit : new int[] {0, 3, 5}) {
            mask |= 1 << bit;
        }
        System.out.println(mask + " " + (mask >> 3 & 1) + " " + (mask & ~(1 << 3)) + " " + power(64) + power(65) + " " + parity(0xF0F1L));
        int a = 5, b = 9;
        a ^= b;
        b ^= a;
        a ^= b;
        System.out.println(a + " " + b + " " + Integer.toHexString(crc("123456789")));
        int gray = 0;
        StringBuilder s = new StringBuilder();
        for (int i = 0; i < 8; i++) {
            gray = i ^ i >> 1;
            s.append(padded(gray).substring(5)).append(' ');
        }
        System.out.println(s);
        System.out.println(Long.toBinaryString(1L << 40).length() + " " + Long.toString(Long.MAX_VALUE, 36) + " " + Long.parseLong("-zz", 36) + " " + Integer.toString(-255, 16) + " " + Integer.parseInt("-80000000", 16));
        long x = 88172645463325252L;
        for (int i = 0; i < 5; i++) {
            x ^= x << 13;
            x ^= x >>> 7;
            x ^= x << 17;
        }
        System.out.println(x + " " + (x >>> 60) + " " + (int) x + " " + (short) x + " " + (byte) x + " " + (char) (x & 63 | 64));
        short sh = (short) 0xFFFF;
        byte by = (byte) 0x80;
        System.out.println((sh >>> 4) + " " + (by >> 2) + " " + ((by & 0xFF) >> 2) + " " + (-1 >>> 28) + " " + (-1L >>> 60) + " " + (1 << -1));
    }
}
