import java.util.ArrayList;
import java.util.List;

/** Boxing, caches, parsing, radices, bits. */
public class Boxes {
    static void parse(String s) {
        try {
            System.out.println(s + " -> " + Integer.parseInt(s));
        } catch (NumberFormatException e) {
            System.out.println(e.getMessage());
        }
        try {
            System.out.println(s + " => " + Long.parseLong(s, 16));
        } catch (NumberFormatException e) {
            System.out.println(e.getMessage());
        }
    }

    public static void main(String[] args) {
        Integer a = 127, b = 127, c = 128, d = 128;
        System.out.println((a == b) + " " + (c == d) + " " + c.equals(d) + " " + a.compareTo(c) + " " + a.hashCode());
        Long l = 5L;
        System.out.println(l.equals(5) + " " + l.equals(5L) + " " + l.intValue() + " " + Long.valueOf(1000).hashCode());
        for (String s : new String[] {"0", "-42", "+7", "2147483647", "2147483648", "-2147483648", "", "-", "12a", "ff", " 1", "9223372036854775808"}) {
            parse(s);
        }
        try {
            Integer.parseInt(null);
        } catch (NumberFormatException e) {
            System.out.println(e.getMessage());
        }
        System.out.println(Integer.toString(255, 16) + " " + Integer.toString(-255, 2) + " " + Integer.toHexString(-1) + " " + Integer.toBinaryString(10) + " " + Integer.toOctalString(64) + " " + Long.toHexString(-1L));
        System.out.println(Integer.bitCount(255) + " " + Integer.reverse(1) + " " + Integer.reverseBytes(1) + " " + Integer.highestOneBit(100) + " " + Integer.lowestOneBit(100) + " " + Integer.numberOfLeadingZeros(1) + " " + Integer.numberOfTrailingZeros(8) + " " + Integer.rotateLeft(1, 33) + " " + Integer.signum(-9));
        System.out.println(Long.bitCount(-1L) + " " + Long.reverse(1) + " " + Long.highestOneBit(1000) + " " + Long.numberOfLeadingZeros(1) + " " + Long.numberOfTrailingZeros(0) + " " + Long.rotateRight(1, 1) + " " + Long.signum(5));
        System.out.println(Integer.MAX_VALUE + 1 + " " + Long.MIN_VALUE + " " + Byte.MAX_VALUE + " " + Short.MIN_VALUE + " " + (int) Character.MAX_VALUE);
        System.out.println(Integer.compare(1, 2) + " " + Integer.max(1, 2) + " " + Integer.sum(3, 4) + " " + Boolean.parseBoolean("TRUE") + " " + Boolean.logicalXor(true, false) + " " + Character.getNumericValue('z'));
        System.out.println(Integer.parseUnsignedInt("4294967295") + " " + Integer.toUnsignedString(-1) + " " + Integer.divideUnsigned(-1, 2) + " " + Long.toUnsignedString(-1L) + " " + Long.compareUnsigned(1, -1) + " " + Long.divideUnsigned(-1, 10) + " " + Long.remainderUnsigned(-1, 10));
        System.out.println(Integer.decode("0x1F") + " " + Integer.decode("-010") + " " + Integer.decode("#ff") + " " + Long.decode("99") + " " + Integer.valueOf("12") + " " + Byte.parseByte("-128") + " " + Short.valueOf((short) 3));
        try {
            Byte.parseByte("128");
        } catch (NumberFormatException e) {
            System.out.println(e.getMessage());
        }
        List<Integer> list = new ArrayList<>();
        for (int i = 0; i < 5; i++) {
            list.add(i * i);
        }
        list.remove(Integer.valueOf(4));
        list.remove(0);
        int sum = 0;
        for (int n : list) {
            sum += n;
        }
        System.out.println(list + " " + sum);
        char ch = 'a';
        ch++;
        ch += 1;
        byte by = (byte) 200;
        short sh = (short) 70000;
        System.out.println(ch + " " + by + " " + sh + " " + (by & 0xff) + " " + (char) (ch + 1) + " " + (ch + 1));
        System.out.println(Character.isDigit('5') + " " + Character.isLetter('x') + " " + Character.isUpperCase('X') + " " + Character.isWhitespace('\t') + " " + Character.toUpperCase('q') + " " + Character.digit('f', 16) + " " + Character.forDigit(11, 16));
        Object o = 42;
        System.out.println(o.getClass().getName() + " " + o.equals(42) + " " + (o instanceof Number) + " " + ((Number) o).longValue());
    }
}
