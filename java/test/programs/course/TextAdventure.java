import java.util.*;
import java.util.function.Consumer;

/** Commands by a map of method references, rooms as a graph. */
public class TextAdventure {
    private final Map<String, Map<String, String>> rooms = new HashMap<>();
    private final Map<String, Consumer<String>> commands = new TreeMap<>();
    private final Set<String> bag = new LinkedHashSet<>();
    private final Map<String, Set<String>> things = new HashMap<>();
    private String at = "hall";
    private boolean over;

    TextAdventure() {
        door("hall", "north", "library");
        door("hall", "east", "kitchen");
        door("library", "up", "attic");
        things.computeIfAbsent("kitchen", k -> new TreeSet<>()).addAll(Arrays.asList("knife", "apple"));
        things.computeIfAbsent("attic", k -> new TreeSet<>()).add("crown");
        commands.put("go", this::go);
        commands.put("take", this::take);
        commands.put("bag", x -> say(bag.isEmpty() ? "empty" : String.join(", ", bag)));
        commands.put("quit", x -> over = true);
    }

    private void door(String a, String way, String b) {
        Map<String, String> back = new HashMap<>();
        back.put("north", "south");
        back.put("east", "west");
        back.put("up", "down");
        rooms.computeIfAbsent(a, k -> new TreeMap<>()).put(way, b);
        rooms.computeIfAbsent(b, k -> new TreeMap<>()).put(back.get(way), a);
    }

    private void say(String s) {
        System.out.println("  " + s);
    }

    private void go(String way) {
        String next = rooms.get(at).get(way);
        if (next == null) {
            say("No way " + way + "; ways are " + rooms.get(at).keySet());
        } else {
            at = next;
            say("You are in the " + at + things.getOrDefault(at, Collections.emptySet()));
        }
    }

    private void take(String what) {
        if (things.getOrDefault(at, new HashSet<>()).remove(what)) {
            bag.add(what);
            say("Taken: " + what);
        } else {
            say("There is no " + what);
        }
    }

    public static void main(String[] args) {
        TextAdventure game = new TextAdventure();
        for (String line : "go east;take apple;take gold;bag;go up;go west;go north;go up;take crown;dance;bag;quit;bag".split(";")) {
            if (game.over) {
                System.out.println("over, " + line + " ignored");
                continue;
            }
            System.out.println("> " + line);
            String[] words = line.split(" ", 2);
            game.commands.getOrDefault(words[0], x -> game.say("I can't " + words[0])).accept(words.length > 1 ? words[1] : "");
        }
    }
}
