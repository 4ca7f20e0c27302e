package jvmx.tool;

import java.io.ByteArrayOutputStream;
import java.io.IOException;
import java.io.OutputStream;
import java.io.StringWriter;
import java.net.URI;
import java.nio.charset.StandardCharsets;
import java.util.ArrayList;
import java.util.Arrays;
import java.util.List;
import java.util.Locale;
import java.util.Map;
import java.util.TreeMap;
import javax.tools.FileObject;
import javax.tools.ForwardingJavaFileManager;
import javax.tools.JavaCompiler;
import javax.tools.JavaFileManager;
import javax.tools.JavaFileObject;
import javax.tools.SimpleJavaFileObject;
import javax.tools.StandardJavaFileManager;
import javax.tools.ToolProvider;

/** Compiles the caller's sources by the compiler of the JDK that runs the tool. */
final class Compiler {
    private Compiler() { }

    /** Returns the class files of the sources by the names of their classes. */
    static Map<String, byte[]> compile(List<String> sources, String classPath) {
        JavaCompiler compiler = ToolProvider.getSystemJavaCompiler();
        if (compiler == null) {
            throw Refusal.ofDevice("this java has no compiler; install a JDK, as by apt-get install openjdk-17-jdk-headless");
        }
        StringWriter messages = new StringWriter();
        try (StandardJavaFileManager files = compiler.getStandardFileManager(null, Locale.ROOT, StandardCharsets.UTF_8)) {
            Memory memory = new Memory(files);
            boolean isDone = compiler.getTask(messages, memory, null, options(classPath), null,
                files.getJavaFileObjectsFromStrings(sources)).call();
            print(messages.toString());
            if (!isDone) {
                throw Refusal.ofInput("javac --release 8 refuses the sources");
            }
            return memory.classes();
        } catch (IOException failure) {
            throw Refusal.ofDevice("javac: " + failure.getMessage());
        }
    }

    private static List<String> options(String classPath) {
        List<String> options = new ArrayList<>(Arrays.asList("--release", "8", "-g", "-proc:none", "-Xlint:-options", "-nowarn"));
        options.addAll(Arrays.asList("-cp", classPath.isEmpty() ? "." : classPath));
        return options;
    }

    /** Prints what the compiler says, but notes. */
    private static void print(String messages) {
        for (String line : messages.split("\n")) {
            if (!line.startsWith("Note: ") && !line.isEmpty()) {
                System.err.println(line);
            }
        }
    }

    /** Keeps the class files that the compiler writes. */
    private static final class Memory extends ForwardingJavaFileManager<StandardJavaFileManager> {
        private final Map<String, ByteArrayOutputStream> written = new TreeMap<>();

        Memory(StandardJavaFileManager files) {
            super(files);
        }

        @Override
        public JavaFileObject getJavaFileForOutput(JavaFileManager.Location location, String className,
                JavaFileObject.Kind kind, FileObject sibling) {
            String name = className.replace('.', '/');
            return new SimpleJavaFileObject(URI.create("memory:///" + name.replace("$", "%24") + ".class"), kind) {
                @Override
                public OutputStream openOutputStream() {
                    ByteArrayOutputStream bytes = new ByteArrayOutputStream();
                    written.put(name, bytes);
                    return bytes;
                }
            };
        }

        Map<String, byte[]> classes() {
            Map<String, byte[]> classes = new TreeMap<>();
            written.forEach((name, bytes) -> classes.put(name, bytes.toByteArray()));
            return classes;
        }
    }
}
