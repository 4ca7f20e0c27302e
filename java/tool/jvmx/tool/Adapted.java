package jvmx.tool;

import java.io.IOException;
import java.nio.charset.StandardCharsets;
import java.nio.file.Files;
import java.nio.file.Path;
import java.util.ArrayList;
import java.util.Arrays;
import java.util.LinkedHashMap;
import java.util.LinkedHashSet;
import java.util.List;
import java.util.Map;
import java.util.Set;

/** Is an adapted program in a folder: its class files, and the index of their methods. */
final class Adapted {
    private static final String INDEX = "index";

    final Path folder;
    /** The class of the source's main method. */
    final String main;
    /** The keys of the methods of each class. */
    final Map<String, Set<String>> methods;

    private Adapted(Path folder, String main, Map<String, Set<String>> methods) {
        this.folder = folder;
        this.main = main;
        this.methods = methods;
    }

    /** Writes an adapted program into a folder, and returns it. */
    static Adapted write(Path folder, String main, Program program) throws IOException {
        Folders.write(folder, program.files());
        List<String> lines = new ArrayList<>();
        lines.add(main);
        program.methods().forEach((name, keys) -> lines.add(name + " " + String.join(" ", keys)));
        Files.write(folder.resolve(INDEX), lines, StandardCharsets.UTF_8);
        return new Adapted(folder, main, program.methods());
    }

    /** Returns the program that a folder has. */
    static Adapted read(Path folder) throws IOException {
        List<String> lines = Files.readAllLines(folder.resolve(INDEX), StandardCharsets.UTF_8);
        Map<String, Set<String>> methods = new LinkedHashMap<>();
        for (String line : lines.subList(1, lines.size())) {
            List<String> parts = Arrays.asList(line.split(" "));
            methods.put(parts.get(0), new LinkedHashSet<>(parts.subList(1, parts.size())));
        }
        return new Adapted(folder, lines.get(0), methods);
    }

    /** Returns the class files. */
    List<Path> files() {
        List<Path> files = new ArrayList<>();
        methods.keySet().forEach(name -> files.add(folder.resolve(name + ".class")));
        return files;
    }
}
