/** Methods that call themselves and each other. */
public class Recursion {
    static int moves;

    static int fibonacci(int n) {
        return n < 2 ? n : fibonacci(n - 1) + fibonacci(n - 2);
    }

    static int ackermann(int m, int n) {
        if (m == 0) return n + 1;
        if (n == 0) return ackermann(m - 1, 1);
        return ackermann(m - 1, ackermann(m, n - 1));
    }

    static void hanoi(int discs, int from, int to, int over) {
        if (discs == 0) return;
        hanoi(discs - 1, from, over, to);
        moves++;
        hanoi(discs - 1, over, to, from);
    }

    static boolean isEven(int n) {
        return n == 0 || isOdd(n - 1);
    }

    static boolean isOdd(int n) {
        return n != 0 && isEven(n - 1);
    }

    static int power(int base, int exponent) {
        if (exponent == 0) return 1;
        int half = power(base, exponent / 2);
        return exponent % 2 == 0 ? half * half : half * half * base;
    }

    static int ninetyOne(int n) {
        return n > 100 ? n - 10 : ninetyOne(ninetyOne(n + 11));
    }

    static void digits(int n, int base) {
        if (n >= base) digits(n / base, base);
        System.out.print(n % base);
    }

    public static void main(String[] words) {
        System.out.println(fibonacci(15));
        System.out.println(ackermann(2, 9));
        System.out.println(ackermann(3, 3));
        hanoi(8, 1, 3, 2);
        System.out.println(moves);
        System.out.println(isEven(300) ? "300 is even" : "300 is odd");
        System.out.println(isOdd(300) ? "300 is odd" : "300 isn't odd");
        System.out.println(power(3, 19));
        System.out.println(power(-7, 11));
        System.out.println(ninetyOne(37));
        digits(1000000, 2);
        System.out.println();
    }
}
