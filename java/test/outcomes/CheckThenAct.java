import java.util.*;

/** A synchronized list, asked and then changed: two steps, so that both may add. */
public class CheckThenAct {
    public static void main(String[] args) throws InterruptedException {
        List<String> list = Collections.synchronizedList(new ArrayList<>());
        Runnable r = () -> {
            if (!list.contains("x")) {
                list.add("x");
            }
        };
        Thread a = new Thread(r), b = new Thread(r);
        a.start();
        b.start();
        a.join();
        b.join();
        System.out.println(list);
    }
}
