/** Arithmetic at the ends of the ints: wrapping, division, shifts, narrowing, comparisons. */
public class Borders {
    static final int LEAST = -2147483648, MOST = 2147483647;

    /** A value that no compiler works out. */
    static int itself(int value) {
        return value;
    }

    static void show(String what, int value) {
        System.out.print(what);
        System.out.print(" ");
        System.out.println(value);
    }

    static void wraps() {
        int least = itself(LEAST), most = itself(MOST);
        show("most + 1", most + 1);
        show("least - 1", least - 1);
        show("-least", -least);
        show("least * -1", least * itself(-1));
        show("most * most", most * most);
        show("65536 * 65536", itself(65536) * itself(65536));
        int up = most;
        up++;
        show("up", up);
        up -= 1000;
        up += 100;
        show("up and down", up);
    }

    static void divides() {
        int least = itself(LEAST), minus = itself(-1), seven = itself(7);
        show("least / -1", least / minus);
        show("least % -1", least % minus);
        show("-7 / 2", -seven / 2);
        show("-7 % 2", -seven % 2);
        show("7 / -2", seven / -2);
        show("7 % -2", seven % -2);
        show("-7 % -2", -seven % -2);
        show("1 / least", 1 / least);
        show("least / 2", least / 2);
        show("least % 10", least % 10);
    }

    static void shifts() {
        int least = itself(LEAST), minus = itself(-1);
        for (int by = -33; by <= 65; by += 14) {
            System.out.print(by);
            System.out.print(": ");
            System.out.print(1 << by);
            System.out.print(" ");
            System.out.print(least >> by);
            System.out.print(" ");
            System.out.println(minus >>> by);
        }
        byte low = (byte) itself(0x80);
        show("a byte >>> 4", low >>> 4);
        low >>>= 1;
        show("kept in a byte", low);
        show("~, &, |, ^", ~least ^ (0x0ff0 & minus | 0x12));
    }

    static void narrows() {
        int[] values = {0, 127, 128, -129, 200, 255, 256, 32767, 32768, 40000, 65535, 65536, -1, LEAST, MOST};
        for (int i = 0; i < values.length; i++) {
            System.out.print((byte) values[i]);
            System.out.print(" ");
            System.out.print((short) values[i]);
            System.out.print(" ");
            System.out.println((char) values[i] + 0);
        }
        char letter = 'z';
        letter += 70000;
        show("a char", letter);
        short narrow = 32767;
        narrow++;
        show("a short", narrow);
        byte tiny = -128;
        tiny--;
        show("a byte", tiny);
    }

    static void stores() {
        byte[] bytes = new byte[2];
        short[] shorts = new short[2];
        char[] chars = new char[2];
        int[] ints = new int[2];
        int most = itself(MOST);
        bytes[1] = (byte) (bytes[0] = (byte) most);
        shorts[1] = (short) (shorts[0] += most);
        chars[1] = (char) (chars[0] = (char) most);
        ints[1] = ints[0]-- + --ints[0];
        System.out.println(bytes[0] + shorts[0] + chars[0]);
        System.out.println(bytes[1] + shorts[1] + chars[1]);
        System.out.println(ints[0] * 100 + ints[1]);
    }

    static void compares() {
        int[] values = {LEAST, -1, 0, 1, MOST};
        int bits = 0;
        for (int i = 0; i < values.length; i++) {
            for (int j = 0; j < values.length; j++) {
                int a = values[i], b = values[j];
                bits = bits * 3 + (a < b ? 1 : 0) + (a <= b ? 2 : 0) + (a == b ? 4 : 0) + (a != b ? 8 : 0);
                bits ^= (a > b ? 16 : 0) | (a >= b ? 32 : 0) | (!(a < 0) && b >= 0 || a > 0 ? 64 : 0) | (b <= 0 ? 128 : 0);
            }
        }
        show("compared", bits);
    }

    public static void main(String[] words) {
        wraps();
        divides();
        shifts();
        narrows();
        stores();
        compares();
    }
}
