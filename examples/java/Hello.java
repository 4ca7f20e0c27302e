/** Prints texts and numbers: the first program to try. */
public class Hello {
    public static void main(String[] words) {
        System.out.println("Hello, world!");
        System.out.print("Ints go from ");
        System.out.print(-2147483648);
        System.out.print(" to ");
        System.out.println(2147483647);
        System.out.println();
        String nothing = null;
        System.out.print(nothing);
        System.out.print("");
        System.out.println(nothing);
        System.out.print("words: ");
        System.out.println(words.length);
    }
}
