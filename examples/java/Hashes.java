/** Hashes of 64 bits: FNV-1a and CRC-64 of bytes, in hexadecimal digits, and the unsigned numbers of SplitMix64. */
public class Hashes {
    static final long BASIS = 0xcbf29ce484222325L, PRIME = 0x100000001b3L, POLYNOMIAL = 0xc96c5795d7870f42L;

    static class Generator {
        private long state;

        Generator(long seed) {
            state = seed;
        }

        long next() {
            long next = state += 0x9e3779b97f4a7c15L;
            next = (next ^ next >>> 30) * 0xbf58476d1ce4e5b9L;
            next = (next ^ next >>> 27) * 0x94d049bb133111ebL;
            return next ^ next >>> 31;
        }
    }

    static void hex(long word) {
        String[] letters = {"a", "b", "c", "d", "e", "f"};
        for (int shift = 60; shift >= 0; shift -= 4) {
            int digit = (int) (word >>> shift) & 15;
            if (digit < 10) System.out.print(digit);
            else System.out.print(letters[digit - 10]);
        }
        System.out.println();
    }

    static void unsigned(long word) {
        long tens = (word >>> 1) / 5;
        if (tens != 0) System.out.print(tens);
        System.out.println(word - tens * 10);
    }

    static long fnv(byte[] bytes, long hash) {
        for (int i = 0; i < bytes.length; i++) hash = (hash ^ bytes[i] & 255) * PRIME;
        return hash;
    }

    static long crc(byte[] bytes) {
        long[] table = new long[256];
        for (int i = 0; i < table.length; i++) {
            table[i] = i;
            for (int bit = 0; bit < 8; bit++) table[i] = table[i] >>> 1 ^ ((table[i] & 1) == 0 ? 0 : POLYNOMIAL);
        }
        long crc = -1;
        for (int i = 0; i < bytes.length; i++) crc = crc >>> 8 ^ table[(int) (crc ^ bytes[i]) & 255];
        return ~crc;
    }

    public static void main(String[] words) {
        hex(fnv(new byte[0], BASIS));
        hex(fnv(new byte[] {'f', 'o', 'o', 'b', 'a', 'r'}, BASIS));
        hex(crc(new byte[] {'1', '2', '3', '4', '5', '6', '7', '8', '9'}));
        Generator generator = new Generator(1234567);
        for (int i = 0; i < 5; i++) unsigned(generator.next());
    }
}
