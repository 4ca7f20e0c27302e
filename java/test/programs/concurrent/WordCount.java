import java.util.*;
import java.util.concurrent.*;
import java.util.stream.*;

/** Words counted by several threads in a concurrent map. */
public class WordCount {
    public static void main(String[] args) throws Exception {
        List<String> lines = Arrays.asList("the quick brown fox", "jumps over the lazy dog", "the fox the dog");
        ConcurrentHashMap<String, Integer> counts = new ConcurrentHashMap<>();
        ExecutorService pool = Executors.newFixedThreadPool(3);
        List<Callable<Void>> tasks = new ArrayList<>();
        for (String line : lines) {
            tasks.add(() -> {
                for (String w : line.split(" ")) {
                    counts.merge(w, 1, Integer::sum);
                }
                return null;
            });
        }
        pool.invokeAll(tasks);
        pool.shutdown();
        String top = counts.entrySet().stream().sorted(Map.Entry.<String, Integer>comparingByValue().reversed().thenComparing(Map.Entry.comparingByKey())).limit(3).map(e -> e.getKey() + "=" + e.getValue()).collect(Collectors.joining(", "));
        System.out.println(top);
        System.out.println(new TreeMap<>(counts));
    }
}
