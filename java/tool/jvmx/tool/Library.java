package jvmx.tool;

import java.io.IOException;
import java.io.InputStream;
import java.nio.file.Path;
import java.util.zip.ZipEntry;
import java.util.zip.ZipFile;

/** Reads the classes of the tool's own library, which take the place of the JDK's. */
final class Library {
    /** The library's method that finds an enumeration's constant by its name. */
    static final String FIND = "find(Ljx/Str;[Ljava/lang/Enum;)Ljava/lang/Enum;";
    /** The same method where it takes the class too, for its message. */
    static final String FIND_WITH_CLASS = "find(Ljava/lang/Class;Ljx/Str;[Ljava/lang/Enum;)Ljava/lang/Enum;";

    private final ZipFile jar;

    Library(Path jar) {
        try {
            this.jar = new ZipFile(jar.toFile());
        } catch (IOException failure) {
            throw Refusal.ofDevice(jar + ": " + failure.getMessage());
        }
    }

    /** Returns the class file of a class, or null if the library hasn't it. */
    byte[] read(String name) {
        ZipEntry entry = World.isGenerated(name) ? null : jar.getEntry(name + ".class");
        if (entry == null) {
            return null;
        }
        try (InputStream bytes = jar.getInputStream(entry)) {
            return JdkClasses.readAll(bytes);
        } catch (IOException failure) {
            throw Refusal.ofDevice(jar.getName() + ": " + failure.getMessage());
        }
    }
}
