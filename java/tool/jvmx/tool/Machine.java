package jvmx.tool;

import java.io.BufferedReader;
import java.io.BufferedWriter;
import java.io.FileDescriptor;
import java.io.FileOutputStream;
import java.io.IOException;
import java.io.InputStream;
import java.io.InputStreamReader;
import java.io.OutputStream;
import java.io.OutputStreamWriter;
import java.io.Writer;
import java.nio.charset.StandardCharsets;
import java.nio.file.Files;
import java.nio.file.Path;
import java.nio.file.Paths;
import java.util.ArrayList;
import java.util.Arrays;
import java.util.List;

/** Calls jvmx on an adapted program, and translates what it reads and prints. */
final class Machine {
    private final String program;
    private final Words words;
    private final Adapted adapted;
    private final Translator translator;
    private final SourcePatterns patterns;

    /** Makes one for an adapted program. */
    Machine(Path home, Words words, Adapted adapted) {
        program = program(home);
        this.words = words;
        this.adapted = adapted;
        patterns = new SourcePatterns(adapted.methods);
        translator = new Translator(words, adapted.main, adapted.folder.toString());
    }

    /** Returns the program that the environment names, or else the repository's. */
    static String program(Path home) {
        String named = System.getenv("JVMX");
        return named != null ? named : home.resolve("jvmx").toString();
    }

    /** Calls jvmx and returns its exit status. */
    int call() throws IOException {
        Process process = start(words());
        Thread end = new Thread(process::destroy);
        Runtime.getRuntime().addShutdownHook(end);
        OutputStream standard = new FileOutputStream(FileDescriptor.out);
        OutputStream error = new FileOutputStream(FileDescriptor.err);
        DebugPrompt prompt = new DebugPrompt(words.command.equals("debug"));
        boolean isProgramOutput = words.command.equals("run");
        Thread errors = pump(() -> passLines(process.getErrorStream(), error, new DebugPrompt(false)));
        Thread output = pump(() -> {
            if (isProgramOutput) {
                try (InputStream written = process.getInputStream()) {
                    new ProgramOutput(standard, error).pass(written);
                }
            } else {
                passLines(process.getInputStream(), standard, prompt);
            }
        });
        feed(process, prompt);
        int status = Folders.waitFor(process);
        join(output);
        join(errors);
        Runtime.getRuntime().removeShutdownHook(end);
        return status;
    }

    private List<String> words() throws IOException {
        List<String> call = new ArrayList<>(Arrays.asList(program, words.command, "--entry", Program.ENTRY));
        words.ofMachine.forEach(word -> call.add(call.get(call.size() - 1).equals("--within") ? patterns.list(word) : word));
        if (words.specification != null) {
            call.addAll(Arrays.asList("--spec", translatedSpecification().toString()));
        }
        call.add("--");
        adapted.files().forEach(file -> call.add(file.toString()));
        return call;
    }

    private Process start(List<String> call) {
        try {
            return new ProcessBuilder(call).start();
        } catch (IOException failure) {
            throw Refusal.ofDevice("there is no jvmx: " + failure.getMessage() + "; build it, or name it in JVMX");
        }
    }

    /** Something that reads or writes until its stream ends. */
    private interface Pumping {
        void run() throws IOException;
    }

    /** Starts a thread that ends with its stream, or where the reader of what it writes has gone. */
    private static Thread pump(Pumping pumping) {
        Thread thread = new Thread(() -> {
            try {
                pumping.run();
            } catch (IOException readerIsGone) {
                // jvmx meets the same closed pipe, and ends with its own status.
            }
        });
        thread.start();
        return thread;
    }

    private static void join(Thread thread) {
        while (thread.isAlive()) {
            try {
                thread.join();
            } catch (InterruptedException again) {
                // Nobody interrupts the tool: it goes on waiting.
            }
        }
    }

    private void passLines(InputStream source, OutputStream target, DebugPrompt prompt) throws IOException {
        try (BufferedReader reader = new BufferedReader(new InputStreamReader(source, StandardCharsets.UTF_8))) {
            Writer writer = new BufferedWriter(new OutputStreamWriter(target, StandardCharsets.UTF_8));
            for (String line = reader.readLine(); line != null; line = reader.readLine()) {
                if (prompt.isAnswer(line)) {
                    writer.write(translator.line(line));
                    writer.write('\n');
                }
                if (!reader.ready() || prompt.isShown()) {
                    writer.flush();
                }
                prompt.show(line);
            }
            writer.flush();
        }
    }

    /** Gives jvmx the caller's standard input where the command reads it. */
    private void feed(Process process, DebugPrompt prompt) throws IOException {
        if (!words.command.equals("debug")) {
            process.getOutputStream().close();
            return;
        }
        pump(() -> {
            BufferedReader reader = new BufferedReader(new InputStreamReader(System.in, StandardCharsets.UTF_8));
            try (Writer writer = new OutputStreamWriter(process.getOutputStream(), StandardCharsets.UTF_8)) {
                writer.write(prompt.begin());
                writer.flush();
                for (String line = reader.readLine(); line != null; line = reader.readLine()) {
                    writer.write(prompt.command(patterns.debuggerCommand(line)));
                    writer.flush();
                }
            }
        });
    }

    /** Writes the specification with the names of the adapted program, and returns its file. */
    private Path translatedSpecification() throws IOException {
        Path given = Paths.get(words.specification);
        if (!Files.isReadable(given)) {
            throw Refusal.ofInput(given + " isn't there, or can't be read");
        }
        List<String> lines = new ArrayList<>();
        for (String line : Files.readAllLines(given, StandardCharsets.UTF_8)) {
            lines.addAll(patterns.specificationLines(line));
        }
        Path made = Files.createTempFile("jvmx-java", ".spec");
        made.toFile().deleteOnExit();
        return Files.write(made, lines, StandardCharsets.UTF_8);
    }
}
