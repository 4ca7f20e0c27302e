// flags: -ea
/** Assertions, which are on here. */
public class Assertions {
    static int half(int n) {
        assert n % 2 == 0 : "odd " + n;
        return n / 2;
    }

    public static void main(String[] args) {
        System.out.println(half(4));
        try {
            half(3);
            System.out.println("not checked");
        } catch (AssertionError e) {
            System.out.println(e.getMessage() + " " + e);
        }
        try {
            assert args.length > 0;
            System.out.println("not checked");
        } catch (AssertionError e) {
            System.out.println(e.getMessage());
        }
        System.out.println(new AssertionError(5).getMessage() + new AssertionError("m", new Exception("c")).getCause().getMessage());
    }
}
