import java.util.*;
import java.util.stream.*;

/** Counts the words of a text and prints a table. */
public class WordFrequency {
    static final String TEXT = "It was the best of times, it was the worst of times, it was the age of wisdom, it was the age of foolishness, "
        + "it was the epoch of belief, it was the epoch of incredulity, it was the season of Light, it was the season of Darkness";

    public static void main(String[] args) {
        Map<String, Integer> counts = new TreeMap<>();
        for (String w : TEXT.toLowerCase().split("[^a-z]+")) {
            counts.put(w, counts.containsKey(w) ? counts.get(w) + 1 : 1);
        }
        List<Map.Entry<String, Integer>> entries = new ArrayList<>(counts.entrySet());
        entries.sort((a, b) -> b.getValue() - a.getValue() != 0 ? b.getValue() - a.getValue() : a.getKey().compareTo(b.getKey()));
        for (Map.Entry<String, Integer> e : entries.subList(0, 6)) {
            System.out.println(String.format("%-8s %3d %s", e.getKey(), e.getValue(), String.join("", Collections.nCopies(e.getValue(), "*"))));
        }
        System.out.println(Arrays.stream(TEXT.split(", ")).map(String::trim).mapToInt(String::length).boxed().collect(Collectors.toList()));
        String longest = Arrays.stream(TEXT.split("\\W+")).max(Comparator.comparingInt(String::length)).get();
        System.out.println(longest + " " + TEXT.chars().filter(Character::isUpperCase).count() + " " + TEXT.replaceAll("[^,]", "").length());
        StringTokenizer st = new StringTokenizer("key=value;other=thing", "=;", true);
        StringJoiner j = new StringJoiner("|", "<", ">").setEmptyValue("empty");
        System.out.print(j + " ");
        while (st.hasMoreTokens()) {
            j.add(st.nextToken());
        }
        System.out.println(j + " " + j.length());
    }
}
