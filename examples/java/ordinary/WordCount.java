import java.util.Arrays;
import java.util.Comparator;
import java.util.List;
import java.util.Map;
import java.util.TreeMap;
import java.util.function.Function;
import java.util.stream.Collectors;

/** Counts the words of a text by streams. */
public class WordCount {
    private static final String TEXT =
        "The sea was calm, the sky was clear.\n"
        + "No ship was seen; no sail, no smoke.\n"
        + "The lamp was lit at ten, and the keeper slept.";

    private static List<String> words(String text) {
        return Arrays.stream(text.split("[^A-Za-z]+"))
            .map(String::toLowerCase)
            .collect(Collectors.toList());
    }

    private static Map<String, Long> counts(List<String> words) {
        return words.stream().collect(Collectors.groupingBy(Function.identity(), TreeMap::new, Collectors.counting()));
    }

    public static void main(String[] args) {
        List<String> words = words(TEXT);
        Map<String, Long> counts = counts(words);
        System.out.println(words.size() + " words, " + counts.size() + " different ones");
        counts.entrySet().stream()
            .sorted(Map.Entry.<String, Long>comparingByValue(Comparator.reverseOrder()).thenComparing(Map.Entry.comparingByKey()))
            .limit(4)
            .forEach(e -> System.out.printf("%-6s %2d%n", e.getKey(), e.getValue()));
        Map<Integer, List<String>> byLength = counts.keySet().stream()
            .collect(Collectors.groupingBy(String::length, TreeMap::new, Collectors.toList()));
        byLength.forEach((length, ones) -> System.out.println(length + ": " + String.join(" ", ones)));
        String longest = counts.keySet().stream().max(Comparator.comparingInt(String::length)).orElse("none");
        System.out.println("the longest is " + longest);
    }
}
