/** Caesar, Vigenere, run lengths, binary and Morse. */
public class Ciphers {
    static String caesar(String s, int by) {
        StringBuilder b = new StringBuilder();
        for (char c : s.toCharArray()) {
            if (Character.isUpperCase(c)) {
                b.append((char) ('A' + Math.floorMod(c - 'A' + by, 26)));
            } else if (Character.isLowerCase(c)) {
                b.append((char) ('a' + Math.floorMod(c - 'a' + by, 26)));
            } else {
                b.append(c);
            }
        }
        return b.toString();
    }

    static String vigenere(String s, String key, int sign) {
        StringBuilder b = new StringBuilder();
        for (int i = 0; i < s.length(); i++) {
            b.append((char) ('A' + Math.floorMod(s.charAt(i) - 'A' + sign * (key.charAt(i % key.length()) - 'A'), 26)));
        }
        return b.toString();
    }

    public static void main(String[] args) {
        String secret = caesar("Hello, World!", 3);
        System.out.println(secret + " " + caesar(secret, -3));
        System.out.println(vigenere("ATTACKATDAWN", "LEMON", 1) + " " + vigenere(vigenere("ATTACKATDAWN", "LEMON", 1), "LEMON", -1));
        StringBuilder bits = new StringBuilder();
        for (char c : "Java".toCharArray()) {
            bits.append(String.format("%8s", Integer.toBinaryString(c)).replace(' ', '0')).append(' ');
        }
        System.out.println(bits.toString().trim());
        String[] morse = {".-", "-...", "-.-.", "-..", ".", "..-.", "--.", "....", "..", ".---"};
        StringBuilder m = new StringBuilder();
        for (char c : "headache".toCharArray()) {
            m.append(morse[c - 'a']).append('/');
        }
        System.out.println(m);
        int hash = 0;
        for (char c : "polynomial".toCharArray()) {
            hash = 31 * hash + c;
        }
        System.out.println((hash == "polynomial".hashCode()) + " " + Integer.toHexString(hash));
        String hex = "";
        for (byte b : "h\u00e9\u20ac".getBytes(java.nio.charset.StandardCharsets.UTF_8)) {
            hex += String.format("%02x", b);
        }
        System.out.println(hex);
    }
}
