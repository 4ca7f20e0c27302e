/** Units, code points, surrogates, categories beyond ASCII. */
public class Unicode {
    public static void main(String[] args) {
        String s = "a\u00e9\u4e2d\ud83d\ude00z";
        System.out.println(s.length() + " " + s.codePointCount(0, s.length()) + " " + s.codePointAt(3) + " " + s.offsetByCodePoints(0, 4));
        for (int i = 0; i < s.length(); i += Character.charCount(s.codePointAt(i))) {
            int c = s.codePointAt(i);
            System.out.print(Integer.toHexString(c) + ":" + Character.isLetter(c) + ":" + Character.getType(c) + " ");
        }
        System.out.println();
        System.out.println(new StringBuilder(s).reverse() + " " + s.toUpperCase() + " " + s.codePoints().count() + " " + s.chars().count());
        System.out.println(Character.isSurrogate(s.charAt(3)) + " " + Character.toChars(0x1F600).length + " " + new String(Character.toChars(0x1F600)).equals(s.substring(3, 5)) + " " + Character.isSupplementaryCodePoint(0x1F600));
        System.out.println("\u0391\u03b2\u0393".toLowerCase() + "\u0416\u0436".toUpperCase() + " " + Character.isUpperCase('\u0416') + Character.isDigit('\u0663') + Character.digit('\u0663', 10) + Character.isWhitespace('\u2003') + Character.isLetterOrDigit('\u00aa') + Character.isAlphabetic('\u00b5'));
        System.out.println("\u00e4".compareTo("b") + " " + "stra\u00dfe".equalsIgnoreCase("STRASSE") + " " + "\u00c4".equalsIgnoreCase("\u00e4") + " " + "\u0130".length());
        System.out.println((int) 'A' + " " + (char) 0x263A + " \u2192 \u00bd " + "caf\u00e9".indexOf('\u00e9') + " " + "x\u0301".length());
        char[] name = {'n', '\u00ef', 'c', 'e'};
        System.out.println(name);
        System.out.println(String.valueOf(name).replace('\u00ef', 'i') + " " + Character.getNumericValue('\u2167') + " " + Character.isJavaIdentifierStart('\u00fc') + Character.isISOControl('\u0085'));
    }
}
