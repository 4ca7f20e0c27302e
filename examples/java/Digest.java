/** SHA-1 and CRC-32 of a few bytes, in ints, printed as hexadecimal digits. */
public class Digest {
    static String letter(int digit) {
        switch (digit) {
            case 10: return "a";
            case 11: return "b";
            case 12: return "c";
            case 13: return "d";
            case 14: return "e";
            default: return "f";
        }
    }

    static void hex(int word) {
        for (int shift = 28; shift >= 0; shift -= 4) {
            int digit = word >>> shift & 15;
            if (digit < 10) System.out.print(digit);
            else System.out.print(letter(digit));
        }
    }

    static int turned(int word, int by) {
        return word << by | word >>> 32 - by;
    }

    /** The bytes, a one bit, zeros, and the number of bits, in words of whole blocks. */
    static int[] blocks(byte[] bytes) {
        int[] words = new int[(bytes.length + 8) / 64 * 16 + 16];
        for (int i = 0; i < bytes.length; i++) words[i / 4] |= (bytes[i] & 255) << 24 - i % 4 * 8;
        words[bytes.length / 4] |= 128 << 24 - bytes.length % 4 * 8;
        words[words.length - 1] = bytes.length * 8;
        return words;
    }

    static int mixed(int round, int b, int c, int d) {
        switch (round / 20) {
            case 0: return (b & c | ~b & d) + 0x5a827999;
            case 1: return (b ^ c ^ d) + 0x6ed9eba1;
            case 2: return (b & c | b & d | c & d) + 0x8f1bbcdc;
            default: return (b ^ c ^ d) + 0xca62c1d6;
        }
    }

    static void take(int[] state, int[] words, int from) {
        int[] w = new int[80];
        for (int i = 0; i < 16; i++) w[i] = words[from + i];
        for (int i = 16; i < 80; i++) w[i] = turned(w[i - 3] ^ w[i - 8] ^ w[i - 14] ^ w[i - 16], 1);
        int a = state[0], b = state[1], c = state[2], d = state[3], e = state[4];
        for (int i = 0; i < 80; i++) {
            int next = turned(a, 5) + mixed(i, b, c, d) + e + w[i];
            e = d;
            d = c;
            c = turned(b, 30);
            b = a;
            a = next;
        }
        state[0] += a;
        state[1] += b;
        state[2] += c;
        state[3] += d;
        state[4] += e;
    }

    static void sha(byte[] bytes) {
        int[] state = {0x67452301, 0xefcdab89, 0x98badcfe, 0x10325476, 0xc3d2e1f0};
        int[] words = blocks(bytes);
        for (int from = 0; from < words.length; from += 16) take(state, words, from);
        for (int i = 0; i < state.length; i++) hex(state[i]);
        System.out.println();
    }

    static int crc(byte[] bytes) {
        int crc = -1;
        for (int i = 0; i < bytes.length; i++) {
            crc ^= bytes[i] & 255;
            for (int bit = 0; bit < 8; bit++) crc = crc >>> 1 ^ ((crc & 1) == 0 ? 0 : 0xedb88320);
        }
        return ~crc;
    }

    public static void main(String[] words) {
        sha(new byte[0]);
        sha(new byte[] {'a', 'b', 'c'});
        byte[] many = new byte[119];
        for (int i = 0; i < many.length; i++) many[i] = (byte) (i * 37);
        sha(many);
        hex(crc(new byte[] {'1', '2', '3', '4', '5', '6', '7', '8', '9'}));
        System.out.println();
        hex(crc(many));
        System.out.println();
    }
}
