package jvmx.tool;

import java.io.File;
import java.io.IOException;
import java.io.InputStream;
import java.nio.file.Files;
import java.nio.file.Path;
import java.nio.file.Paths;
import java.util.ArrayList;
import java.util.LinkedHashMap;
import java.util.List;
import java.util.Map;
import java.util.jar.Attributes;
import java.util.jar.JarEntry;
import java.util.jar.JarInputStream;
import java.util.stream.Collectors;
import java.util.stream.Stream;
import org.objectweb.asm.ClassReader;

/** Reads the class files of the caller's PATHs, and compiles the sources among them. */
final class Inputs {
    private final Map<String, byte[]> classes = new LinkedHashMap<>();
    /** The classes that a PATH names itself, or that were compiled: those that may be the main class. */
    private final List<String> direct = new ArrayList<>();
    private final List<String> sources = new ArrayList<>();
    private final List<String> classPath = new ArrayList<>();
    private String mainOfJar;

    /** Returns what the paths have. */
    static Inputs read(List<String> paths) {
        Inputs inputs = new Inputs();
        for (String path : paths) {
            try {
                inputs.readPath(Paths.get(path));
            } catch (IOException failure) {
                throw Refusal.ofDevice(path + ": " + failure.getMessage());
            }
        }
        inputs.compile();
        return inputs;
    }

    /** Returns the class files by the names of their classes. */
    Map<String, byte[]> classes() {
        return classes;
    }

    private void readPath(Path path) throws IOException {
        String name = path.toString();
        if (!Files.exists(path)) {
            throw Refusal.ofInput(name + " isn't there");
        }
        if (Files.isDirectory(path)) {
            readFolder(path);
        } else if (name.endsWith(".java")) {
            sources.add(name);
        } else if (name.endsWith(".class")) {
            add(name, Files.readAllBytes(path), true);
        } else {
            readJar(path);
        }
    }

    private void readFolder(Path folder) throws IOException {
        List<Path> files;
        try (Stream<Path> all = Files.walk(folder)) {
            files = all.filter(Files::isRegularFile).sorted().collect(Collectors.toList());
        }
        boolean hasClasses = false;
        for (Path file : files) {
            if (file.toString().endsWith(".class") && !folder.relativize(file).startsWith("META-INF")) {
                add(file.toString(), Files.readAllBytes(file), true);
                hasClasses = true;
            }
        }
        if (hasClasses) {
            classPath.add(folder.toString());
            return;
        }
        files.stream().map(Path::toString).filter(name -> name.endsWith(".java")).forEach(sources::add);
    }

    private void readJar(Path path) throws IOException {
        classPath.add(path.toString());
        try (InputStream bytes = Files.newInputStream(path); JarInputStream jar = new JarInputStream(bytes)) {
            if (jar.getManifest() != null && mainOfJar == null) {
                String main = jar.getManifest().getMainAttributes().getValue(Attributes.Name.MAIN_CLASS);
                mainOfJar = main == null ? null : main.trim().replace('.', '/');
            }
            for (JarEntry entry = jar.getNextJarEntry(); entry != null; entry = jar.getNextJarEntry()) {
                String name = entry.getName();
                boolean isClass = name.endsWith(".class") && !name.startsWith("META-INF/") && !name.endsWith("-info.class");
                if (isClass) {
                    add(path + "!" + name, JdkClasses.readAll(jar), false);
                }
            }
        }
    }

    private void add(String path, byte[] bytes, boolean isDirect) {
        if (path.endsWith("-info.class")) {
            return;
        }
        String name;
        try {
            name = new ClassReader(bytes).getClassName();
        } catch (IllegalArgumentException | ArrayIndexOutOfBoundsException fault) {
            throw Refusal.ofInput(path + " is no class file that this ASM reads: " + fault.getMessage());
        }
        if (classes.putIfAbsent(name, bytes) == null && isDirect) {
            direct.add(name);
        }
    }

    private void compile() {
        if (sources.isEmpty()) {
            return;
        }
        Map<String, byte[]> compiled = Compiler.compile(sources, String.join(File.pathSeparator, classPath));
        compiled.forEach((name, bytes) -> add(name, bytes, true));
    }

    /** Returns the class of the main method: the one of the words, of a jar, or the only one there is. */
    String main(String named) {
        String wanted = named != null ? named : mainOfJar;
        if (wanted != null) {
            if (!MainMethods.isIn(classes.get(wanted))) {
                throw Refusal.ofInput(wanted + " has no method main([Ljava/lang/String;)V, or isn't there");
            }
            return wanted;
        }
        List<String> found = direct.stream().filter(name -> MainMethods.isIn(classes.get(name))).collect(Collectors.toList());
        if (found.size() == 1) {
            return found.get(0);
        }
        throw Refusal.ofInput(found.isEmpty() ? "no class has a method main([Ljava/lang/String;)V"
            : "--main C is needed, with C one of " + String.join(" ", found));
    }
}
