package jvmx.tool;

import java.util.ArrayList;
import java.util.Collection;
import java.util.List;
import java.util.Map;
import java.util.Set;

/** Turns the names of classes and methods that the caller writes into those of the adapted program. */
final class SourcePatterns {
    /** The keys of the methods of each class that was written. */
    private final Map<String, Set<String>> written;

    SourcePatterns(Map<String, Set<String>> written) {
        this.written = written;
    }

    /** Returns the name of a class. */
    String className(String name) {
        String mapped = Renaming.INSTANCE.map(name);
        return BuiltIns.isThrowable(mapped) && written.containsKey(BuiltIns.withMessage(mapped)) ? BuiltIns.withMessage(mapped) : mapped;
    }

    /** Returns the patterns that match what `C.*`, `C.m` or `C.m.D` matches in the source. */
    List<String> patterns(String pattern) {
        int dot = pattern.indexOf('.');
        if (dot < 0) {
            return one(pattern);
        }
        String owner = className(pattern.substring(0, dot));
        String member = pattern.substring(dot + 1);
        int second = member.indexOf('.');
        String name = second < 0 ? member : member.substring(0, second);
        String descriptor = second < 0 ? null : Renaming.INSTANCE.mapMethodDesc(member.substring(second + 1));
        List<String> found = new ArrayList<>();
        addIfWritten(found, owner, name, descriptor);
        String moved = descriptor == null ? null : Names.withReceiver(owner, descriptor);
        addIfWritten(found, owner + Interfaces.SUFFIX, name, moved);
        if (moved != null) {
            addIfWritten(found, owner + Interfaces.SUFFIX, name, descriptor);
        }
        return found.isEmpty() ? one(owner + "." + name + (descriptor == null ? "" : "." + descriptor)) : found;
    }

    private void addIfWritten(List<String> found, String owner, String name, String descriptor) {
        Collection<String> keys = written.get(owner);
        if (keys == null) {
            return;
        }
        boolean isThere = name.equals("*") || keys.stream().anyMatch(key -> descriptor == null
            ? key.startsWith(name + "(") : key.equals(name + descriptor));
        if (isThere) {
            found.add(owner + "." + name + (descriptor == null ? "" : "." + descriptor));
        }
    }

    private static List<String> one(String pattern) {
        List<String> list = new ArrayList<>();
        list.add(pattern);
        return list;
    }

    /** Returns a list of patterns that are joined by commas. */
    String list(String joined) {
        List<String> found = new ArrayList<>();
        for (String pattern : joined.split(",")) {
            found.addAll(patterns(pattern));
        }
        return String.join(",", found);
    }

    /** Returns a specification's line, or several that mean the same. */
    List<String> specificationLines(String line) {
        String[] parts = line.trim().split("\\s+", 2);
        if (parts.length < 2 || line.startsWith("#")) {
            return one(line);
        }
        List<String> lines = new ArrayList<>();
        try {
            patterns(parts[1]).forEach(pattern -> lines.add(parts[0] + " " + pattern));
        } catch (IllegalArgumentException | StringIndexOutOfBoundsException noDescriptor) {
            return one(line);
        }
        return lines;
    }

    /** Returns a command of the debugger. */
    String debuggerCommand(String line) {
        String[] parts = line.trim().split("\\s+");
        if (parts.length == 3 && parts[0].equals("break")) {
            return "break " + patterns(parts[1]).get(0) + " " + parts[2];
        }
        if (parts.length == 2 && parts[0].equals("class")) {
            return "class " + className(parts[1]);
        }
        return line;
    }
}
