class Lines {
    static int count;

    static void fail() {
        throw new RuntimeException();
    }

    static void tidy() {
        try {
            fail();
        } finally {
            count = 1;
        }
    }

    static void ask() {
        count = Missing.find(count);
    }

    static void compare() {
        count =
            (int) (2.0 * count);
    }

    public static void main(String[] words) {
        tidy();
    }
}
