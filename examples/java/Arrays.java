/** Arrays as objects: their kinds, what they may be cast to, and elements of each type. */
public class Arrays {
    static void kinds(Object thing) {
        System.out.print(thing instanceof int[] ? "ints " : "");
        System.out.print(thing instanceof byte[] ? "bytes " : "");
        System.out.print(thing instanceof boolean[] ? "booleans " : "");
        System.out.print(thing instanceof Object[] ? "objects " : "");
        System.out.print(thing instanceof String[] ? "texts " : "");
        System.out.print(thing instanceof Object[][] ? "arrays " : "");
        System.out.print(thing instanceof int[][] ? "arrays of ints " : "");
        System.out.print(thing instanceof Cloneable ? "cloneable " : "");
        System.out.print(thing instanceof java.io.Serializable[] ? "serializables " : "");
        System.out.println(thing instanceof java.io.Serializable ? "serializable" : "");
    }

    static int sum(int[] ints) {
        int sum = 0;
        for (int i = 0; i < ints.length; i++) sum += ints[i];
        return sum;
    }

    static int elements() {
        boolean[] booleans = {true, false, true};
        byte[] bytes = {-128, 127};
        short[] shorts = {-32768, 32767};
        char[] chars = {'\u0000', '\uffff'};
        int[] ints = {-2147483648, 2147483647};
        booleans[1] ^= booleans[0];
        booleans[2] &= !booleans[1];
        bytes[0]--;
        shorts[1] += 2;
        chars[0] -= 1;
        ints[1]++;
        System.out.println(bytes[0] + shorts[1] + chars[0] + chars[1] + ints[1]);
        return (booleans[0] ? 100 : 0) + (booleans[1] ? 10 : 0) + (booleans[2] ? 1 : 0);
    }

    static void shared() {
        int[] one = {1, 2, 3};
        int[] same = one;
        int[][] rows = {one, same, {1, 2, 3}};
        same[0] = 9;
        System.out.println(rows[0][0] * 100 + rows[1][0] * 10 + rows[2][0]);
        System.out.println(rows[0] == rows[1] ? "one array" : "two arrays");
        System.out.println(rows[1] == rows[2] ? "one array" : "two arrays");
        rows[2] = null;
        rows[1] = new int[] {4};
        System.out.println(sum(one) + sum(rows[1]));
    }

    static void stored() {
        Object[] things = new Object[5];
        things[0] = things;
        things[1] = "a text in an array";
        things[2] = new int[] {5, 6};
        things[3] = new String[][] {{"deep"}, {}};
        Object[] inner = (Object[]) things[0];
        System.out.println((String) inner[1]);
        System.out.println(((int[]) inner[2])[1]);
        System.out.println(((String[][]) things[3])[0][0]);
        System.out.println(((Object[]) ((Object[]) things[3])[1]).length);
        System.out.println(things[4] == null ? "nothing" : "something");
        String[] texts = {"one", "two"};
        Object[] seen = texts;
        seen[1] = "three";
        System.out.println(texts[1]);
    }

    public static void main(String[] words) {
        kinds(new int[0]);
        kinds(new byte[1]);
        kinds(new boolean[1]);
        kinds(new Object[1]);
        kinds(new String[1]);
        kinds(new int[1][1]);
        kinds(new Runnable[1][][]);
        kinds("a text");
        kinds(null);
        System.out.println(elements());
        shared();
        stored();
    }
}
