import java.util.concurrent.ArrayBlockingQueue;
import java.util.concurrent.BlockingQueue;
import java.util.function.UnaryOperator;

/** Lines go through two stages, each a thread that takes from one queue and puts into the next. */
public class Pipeline {
    private static final String END = "";

    /** Starts a thread that changes each text on its way. */
    private static Thread stage(BlockingQueue<String> in, BlockingQueue<String> out, UnaryOperator<String> change) {
        Thread thread = new Thread(() -> {
            try {
                for (String text = in.take(); !text.equals(END); text = in.take()) {
                    out.put(change.apply(text));
                }
                out.put(END);
            } catch (InterruptedException e) {
                Thread.currentThread().interrupt();
            }
        });
        thread.start();
        return thread;
    }

    public static void main(String[] args) throws InterruptedException {
        BlockingQueue<String> first = new ArrayBlockingQueue<>(2);
        BlockingQueue<String> second = new ArrayBlockingQueue<>(2);
        BlockingQueue<String> third = new ArrayBlockingQueue<>(2);
        Thread trimming = stage(first, second, String::trim);
        Thread reversing = stage(second, third, text -> new StringBuilder(text).reverse().toString());
        Thread feeding = new Thread(() -> {
            try {
                for (String word : " north , east,south , west ".split(",")) {
                    first.put(word);
                }
                first.put(END);
            } catch (InterruptedException e) {
                Thread.currentThread().interrupt();
            }
        });
        feeding.start();
        for (String text = third.take(); !text.equals(END); text = third.take()) {
            System.out.println(text);
        }
        feeding.join();
        trimming.join();
        reversing.join();
    }
}
