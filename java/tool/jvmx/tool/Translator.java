package jvmx.tool;

import java.util.List;
import java.util.regex.Matcher;
import java.util.regex.Pattern;
import org.objectweb.asm.Type;

/** Turns what jvmx prints into the names of the source, and its commands into those of the tool. */
final class Translator {
    private static final String NAME = "[^\\s.()\\[;,:]+";
    private static final String TYPE = "\\[*(?:[BCDFIJSZ]|L[^;\\s]+;)";
    private static final Pattern PLACES = Pattern.compile(
        "(?<owner>" + NAME + ")\\.(?<method>" + NAME + ")\\.(?<descriptor>\\((?:" + TYPE + ")*\\)(?:" + TYPE + "|V))"
        + "|(?<holder>" + NAME + ")\\.(?<field>" + NAME + ")\\.(?<type>" + TYPE + ")(?![\\w/$])"
        + "|(?<class>(?<![\\w/$.])jx/[\\w/$]+|(?<![\\w/$.])[\\w/$]+\\$jx(?![\\w$]))");
    private static final Pattern COMMAND = Pattern.compile("(\\s*)jvmx (run|debug|trace|explore|shrink|campaign) (.*)");

    private final SourceNames names = new SourceNames();
    private final Words words;
    private final String main;
    private final String folder;

    /** Makes one for a call of the tool, whose adapted files are in a folder. */
    Translator(Words words, String main, String folder) {
        this.words = words;
        this.main = main;
        this.folder = folder;
    }

    /** Returns a line with the names of the source. */
    String line(String line) {
        Matcher command = line.contains("jvmx ") ? COMMAND.matcher(line) : null;
        if (command != null && command.matches()) {
            return command.group(1) + command(command.group(2), command.group(3));
        }
        return line.contains("jx/") || line.contains(Interfaces.SUFFIX) ? names(line) : line;
    }

    private String names(String line) {
        Matcher place = PLACES.matcher(line);
        StringBuffer translated = new StringBuffer();
        while (place.find()) {
            place.appendReplacement(translated, Matcher.quoteReplacement(name(place)));
        }
        return place.appendTail(translated).toString();
    }

    private String name(Matcher place) {
        if (place.group("owner") != null) {
            String owner = place.group("owner");
            return names.method(owner, place.group("method"), descriptor(owner, place.group("descriptor")));
        }
        if (place.group("holder") != null) {
            return names.field(place.group("holder"), place.group("field"), place.group("type"));
        }
        return names.className(place.group("class"));
    }

    /** Returns the descriptor in the source of a method whose body was moved out of its interface. */
    private String descriptor(String owner, String descriptor) {
        if (!owner.endsWith(Interfaces.SUFFIX)) {
            return descriptor;
        }
        String receiver = Type.getObjectType(names.className(owner)).getDescriptor();
        return descriptor.startsWith("(" + receiver) ? "(" + descriptor.substring(1 + receiver.length()) : descriptor;
    }

    /** Returns the command of the tool that does what a command of jvmx does. */
    private String command(String command, String rest) {
        StringBuilder translated = new StringBuilder("./jvmx-java ").append(command).append(" --main ").append(Quoting.quote(main));
        String[] given = rest.split(" ");
        for (int i = 0; i < given.length && !given[i].equals("--") && !given[i].contains(folder + "/"); i++) {
            if (given[i].equals("--entry") || given[i].equals("--spec")) {
                i++;
            } else {
                translated.append(' ').append(given[i]);
            }
        }
        boolean isJudged = words.specification != null && rest.contains("--spec ");
        if (isJudged) {
            translated.append(" --spec ").append(Quoting.quote(words.specification));
        }
        appendOwn(translated, words.paths);
        return translated.toString();
    }

    private void appendOwn(StringBuilder translated, List<String> paths) {
        if (words.hasAssertions) {
            translated.append(" -ea");
        }
        if (words.isAnyway) {
            translated.append(" --anyway");
        }
        for (String path : paths) {
            translated.append(' ').append(Quoting.quote(path));
        }
    }
}
