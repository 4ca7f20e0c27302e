/** A reader sees a pair before, between or after two writes. */
public class DirtyRead {
    static int x, y;

    public static void main(String[] args) throws InterruptedException {
        Thread writer = new Thread(() -> {
            x = 1;
            y = 1;
        });
        int[] seen = new int[2];
        Thread reader = new Thread(() -> {
            seen[0] = x;
            seen[1] = y;
        });
        writer.start();
        reader.start();
        writer.join();
        reader.join();
        System.out.println(seen[0] + " " + seen[1]);
    }
}
