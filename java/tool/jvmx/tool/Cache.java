package jvmx.tool;

import java.io.IOException;
import java.nio.charset.StandardCharsets;
import java.nio.file.Files;
import java.nio.file.Path;
import java.nio.file.Paths;
import java.nio.file.attribute.FileTime;
import java.security.MessageDigest;
import java.security.NoSuchAlgorithmException;
import java.util.Comparator;
import java.util.List;
import java.util.stream.Collectors;
import java.util.stream.Stream;

/** Keeps the last adapted programs, by the hash of all that they were made of. */
final class Cache {
    private static final int MOST_PROGRAMS = 24;

    private final Path folder;
    private final String key;

    /** Makes one in a folder, for the program that a call of the tool names. */
    Cache(Path home, Words words) throws IOException {
        folder = home.resolve("java/out/programs");
        key = hash(home, words);
    }

    /** Returns the program if it was adapted before, or null. */
    Adapted find() throws IOException {
        Path program = folder.resolve(key);
        if (!Files.exists(program)) {
            return null;
        }
        Files.setLastModifiedTime(program, FileTime.fromMillis(System.currentTimeMillis()));
        return Adapted.read(program);
    }

    /** Writes a program, and returns it as it is kept. The oldest programs beyond the limit are deleted. */
    Adapted add(String main, Program program) throws IOException {
        Files.createDirectories(folder);
        Path made = Files.createTempDirectory(folder, "new");
        Adapted.write(made, main, program);
        Path kept = folder.resolve(key);
        try {
            Files.move(made, kept);
        } catch (IOException anotherCallWasFirst) {
            Folders.delete(made);
        }
        deleteOldest();
        return Adapted.read(kept);
    }

    private void deleteOldest() throws IOException {
        List<Path> programs;
        try (Stream<Path> all = Files.list(folder)) {
            programs = all.sorted(Comparator.comparing(Cache::time).reversed()).collect(Collectors.toList());
        }
        for (Path program : programs.subList(Math.min(MOST_PROGRAMS, programs.size()), programs.size())) {
            Folders.delete(program);
        }
    }

    private static FileTime time(Path path) {
        try {
            return Files.getLastModifiedTime(path);
        } catch (IOException gone) {
            return FileTime.fromMillis(0);
        }
    }

    private static String hash(Path home, Words words) throws IOException {
        MessageDigest digest;
        try {
            digest = MessageDigest.getInstance("SHA-256");
        } catch (NoSuchAlgorithmException impossible) {
            throw new IllegalStateException(impossible);
        }
        String settings = System.getProperty("java.home") + " " + System.getProperty("java.vm.version") + " " + words.main + " "
            + words.hasAssertions + " " + words.hasNatives + " " + words.isStaying() + " " + words.isAnyway + "\n";
        digest.update(settings.getBytes(StandardCharsets.UTF_8));
        for (String part : new String[] { "tool", "library" }) {
            Path jar = home.resolve("java/out/" + part + ".jar");
            digest.update((Files.getLastModifiedTime(jar) + " " + Files.size(jar) + "\n").getBytes(StandardCharsets.UTF_8));
        }
        for (String path : words.paths) {
            addPath(digest, Paths.get(path));
        }
        StringBuilder text = new StringBuilder();
        for (byte each : digest.digest()) {
            text.append(String.format("%02x", each));
        }
        return text.toString();
    }

    private static void addPath(MessageDigest digest, Path path) throws IOException {
        List<Path> files;
        try (Stream<Path> all = Files.walk(path)) {
            files = all.filter(Files::isRegularFile).sorted().collect(Collectors.toList());
        } catch (java.nio.file.NoSuchFileException missing) {
            throw Refusal.ofInput(path + " isn't there");
        }
        for (Path file : files) {
            digest.update((file + " " + Files.size(file) + "\n").getBytes(StandardCharsets.UTF_8));
            digest.update(Files.readAllBytes(file));
        }
    }
}
