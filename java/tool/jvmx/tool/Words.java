package jvmx.tool;

import java.util.ArrayList;
import java.util.Arrays;
import java.util.HashSet;
import java.util.List;
import java.util.Set;

/** Reads the words of a call of the tool. */
final class Words {
    private static final Set<String> COMMANDS = new HashSet<>(Arrays.asList(
        "run", "trace", "debug", "campaign", "explore", "shrink", "needs", "adapt"));
    /** Those options of jvmx that take no value. */
    private static final Set<String> FLAGS = new HashSet<>(Arrays.asList(
        "--choices", "--explain", "--stop", "--summary", "--all", "--serial", "--dot", "--json", "--quiet", "--shortest"));

    final String command;
    /** The main class, or null where the words don't name it. */
    String main;
    String outputFolder;
    String specification;
    boolean isAnyway;
    boolean hasAssertions;
    boolean isVerbose;
    /** Whether the class files are checked before they are used. */
    boolean isVerified;
    /** Whether the machine has the natives of jvmx/Native. */
    boolean hasNatives;
    /** The words that jvmx gets as they are. */
    final List<String> ofMachine = new ArrayList<>();
    final List<String> paths = new ArrayList<>();

    private Words(String command) {
        this.command = command;
    }

    /** Returns what the words mean, or refuses them. */
    static Words read(String[] given) {
        if (given.length == 0 || !COMMANDS.contains(given[0])) {
            String fault = given.length == 0 ? "no command" : given[0] + " is no command of jvmx-java";
            throw Refusal.ofInput(fault + "; jvmx-java --help lists them");
        }
        Words words = new Words(given[0]);
        int at = 1;
        while (at < given.length) {
            at = words.readOne(given, at);
        }
        if (words.paths.isEmpty()) {
            throw Refusal.ofInput("no PATH: name a .java file, a class file, a folder or a jar");
        }
        if (words.command.equals("adapt") != (words.outputFolder != null)) {
            throw Refusal.ofInput("adapt, and no other command, takes -o DIR");
        }
        return words;
    }

    /** Returns whether the schedules stay with a thread while it can go on. */
    boolean isStaying() {
        if (command.equals("explore") || command.equals("shrink")) {
            return true;
        }
        int at = ofMachine.indexOf("--sched");
        String schedule = at < 0 ? "" : ofMachine.get(at + 1);
        return schedule.startsWith("stay:") || ofMachine.stream().anyMatch(word -> word.startsWith("--sched=stay:"));
    }

    private int readOne(String[] given, int at) {
        String word = given[at];
        int equals = word.startsWith("--") ? word.indexOf('=') : -1;
        String option = equals < 0 ? word : word.substring(0, equals);
        switch (option) {
            case "--": paths.addAll(Arrays.asList(given).subList(at + 1, given.length)); return given.length;
            case "-ea": hasAssertions = true; return at + 1;
            case "--anyway": isAnyway = true; return at + 1;
            case "--verify": isVerified = true; return at + 1;
            case "--verbose": isVerbose = true; return at + 1;
            case "-o":
            case "--main":
            case "--spec":
                setValue(option, equals < 0 ? value(given, at + 1) : word.substring(equals + 1));
                return equals < 0 ? at + 2 : at + 1;
            default:
        }
        if (!word.startsWith("-")) {
            paths.addAll(Arrays.asList(word.split(":")));
            return at + 1;
        }
        ofMachine.add(word);
        if (equals < 0 && !FLAGS.contains(word)) {
            ofMachine.add(value(given, at + 1));
            return at + 2;
        }
        return at + 1;
    }

    private void setValue(String option, String value) {
        switch (option) {
            case "-o": outputFolder = value; break;
            case "--main": main = value.replace('.', '/'); break;
            default: specification = value;
        }
    }

    private static String value(String[] given, int at) {
        if (at >= given.length) {
            throw Refusal.ofInput(given[at - 1] + " lacks its value");
        }
        return given[at];
    }
}
