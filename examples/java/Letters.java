/** Characters in arrays: turned round, shifted, counted, sorted, and read as numbers. */
public class Letters {
    static String text(char letter) {
        switch (letter) {
            case 'a': return "a"; case 'b': return "b"; case 'c': return "c"; case 'd': return "d"; case 'e': return "e";
            case 'f': return "f"; case 'g': return "g"; case 'h': return "h"; case 'i': return "i"; case 'j': return "j";
            case 'k': return "k"; case 'l': return "l"; case 'm': return "m"; case 'n': return "n"; case 'o': return "o";
            case 'p': return "p"; case 'q': return "q"; case 'r': return "r"; case 's': return "s"; case 't': return "t";
            case 'u': return "u"; case 'v': return "v"; case 'w': return "w"; case 'x': return "x"; case 'y': return "y";
            case 'z': return "z";
            case ' ': return " ";
            default: return "?";
        }
    }

    static void print(char[] letters) {
        for (int i = 0; i < letters.length; i++) System.out.print(text(letters[i]));
        System.out.println();
    }

    static char[] turned(char[] letters) {
        char[] result = new char[letters.length];
        for (int i = 0; i < letters.length; i++) result[letters.length - 1 - i] = letters[i];
        return result;
    }

    static char[] shifted(char[] letters, int by) {
        char[] result = new char[letters.length];
        for (int i = 0; i < letters.length; i++) {
            char letter = letters[i];
            result[i] = letter >= 'a' && letter <= 'z' ? (char) ('a' + (letter - 'a' + by + 26) % 26) : letter;
        }
        return result;
    }

    static boolean isPalindrome(char[] letters) {
        int low = 0, high = letters.length - 1;
        while (low < high) {
            if (letters[low] == ' ') low++;
            else if (letters[high] == ' ') high--;
            else if (letters[low++] != letters[high--]) return false;
        }
        return true;
    }

    static char mostFrequent(char[] letters) {
        int[] counts = new int[128];
        for (int i = 0; i < letters.length; i++) if (letters[i] != ' ') counts[letters[i]]++;
        char most = 0;
        for (char letter = 0; letter < counts.length; letter++) if (counts[letter] > counts[most]) most = letter;
        return most;
    }

    static char[] sorted(char[] letters) {
        char[] result = turned(letters);
        for (int i = 1; i < result.length; i++) {
            char letter = result[i];
            int place = i;
            for (; place > 0 && result[place - 1] > letter; place--) result[place] = result[place - 1];
            result[place] = letter;
        }
        return result;
    }

    static int compared(char[] one, char[] other) {
        for (int i = 0; i < one.length && i < other.length; i++) {
            if (one[i] != other[i]) return one[i] - other[i];
        }
        return one.length - other.length;
    }

    static int number(char[] digits) {
        int sign = digits[0] == '-' ? -1 : 1;
        int value = 0;
        for (int i = sign < 0 ? 1 : 0; i < digits.length; i++) value = value * 10 + (digits[i] - '0');
        return sign * value;
    }

    public static void main(String[] words) {
        char[] phrase = {'n', 'e', 'v', 'e', 'r', ' ', 'o', 'd', 'd', ' ', 'o', 'r', ' ', 'e', 'v', 'e', 'n'};
        char[] word = {'a', 's', 's', 'e', 's', 's', 'm', 'e', 'n', 't', 's'};
        print(turned(word));
        print(shifted(phrase, 13));
        print(shifted(shifted(phrase, 7), -7));
        System.out.println(isPalindrome(phrase) ? "palindrome" : "no palindrome");
        System.out.println(isPalindrome(word) ? "palindrome" : "no palindrome");
        System.out.println(text(mostFrequent(phrase)));
        System.out.println(mostFrequent(word) + 0);
        print(sorted(word));
        System.out.println(compared(phrase, word));
        System.out.println(compared(new char[] {'a', 's'}, word));
        System.out.println(number(new char[] {'-', '2', '1', '4', '7', '4', '8', '3', '6', '4', '8'}));
        System.out.println(number(new char[] {'4', '2'}) + 1);
    }
}
