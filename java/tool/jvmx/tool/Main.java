package jvmx.tool;

import java.io.IOException;
import java.io.PrintStream;
import java.nio.file.Path;
import java.nio.file.Paths;
import java.util.List;

/** Runs the tool on the caller's words: adapts a program, and calls jvmx on what was made. */
public final class Main {
    private final Path home = Paths.get(System.getenv("JVMX_HOME"));
    private final Words words;

    private Main(Words words) {
        this.words = words;
        words.hasNatives = NativeProbe.areUsed(Machine.program(home));
    }

    /** Ends with jvmx's exit status, or with that of a refusal. */
    public static void main(String[] given) {
        int status = call(given);
        System.out.flush();
        System.exit(status);
    }

    /** Runs the tool, and returns the exit status. */
    public static int call(String[] given) {
        try {
            return Help.isAsked(given) ? Help.print() : new Main(Words.read(given)).run();
        } catch (Refusal refusal) {
            System.err.println("jvmx-java: " + refusal.getMessage());
            return refusal.status;
        } catch (IOException failure) {
            System.err.println("jvmx-java: " + failure);
        } catch (RuntimeException | StackOverflowError | OutOfMemoryError fault) {
            System.err.println("jvmx-java: a fault of the tool, or a JDK whose classes it doesn't know:");
            fault.printStackTrace();
        }
        return Refusal.DEVICE;
    }

    private int run() throws IOException {
        switch (words.command) {
            case "needs": return needs();
            case "adapt":
                Program program = adapt(Inputs.read(words.paths));
                Adapted.write(Paths.get(words.outputFolder), words.main, program);
                return 0;
            default:
                Adapted adapted = adapted();
                return new Machine(home, words, adapted).call();
        }
    }

    private Adapted adapted() throws IOException {
        Cache cache = new Cache(home, words);
        Adapted known = cache.find();
        if (known != null) {
            return known;
        }
        Program program = adapt(Inputs.read(words.paths));
        return cache.add(words.main, program);
    }

    /** Adapts the program, and refuses it if its own classes need what isn't there. */
    private Program adapt(Inputs inputs) {
        long begin = System.nanoTime();
        Program program = adaptAll(inputs);
        if (!program.needs().ofUser().isEmpty() && !words.isAnyway) {
            program.needs().ofUser().forEach(System.err::println);
            throw Refusal.ofInput("the program needs what isn't there, as said above; --anyway runs it up to there");
        }
        if (words.isVerified) {
            verify(program);
        }
        if (words.isVerbose) {
            print(program.needs(), System.err);
            long bytes = program.files().values().stream().mapToLong(file -> file.length).sum();
            System.err.println("jvmx-java: " + program.files().size() + " class files of " + bytes + " bytes, adapted in "
                + (System.nanoTime() - begin) / 1000000 + " ms");
        }
        return program;
    }

    private static void verify(Program program) {
        List<String> faults = Verification.faults(program.files());
        faults.forEach(System.err::println);
        if (!faults.isEmpty()) {
            throw Refusal.ofDevice("the tool wrote wrong class files, as said above");
        }
    }

    private Program adaptAll(Inputs inputs) {
        words.main = inputs.main(words.main);
        Settings settings = new Settings(words.main, words.hasAssertions, words.hasNatives, words.isStaying());
        return Program.adapt(settings, inputs.classes(), new Library(home.resolve("java/out/library.jar")));
    }

    private int needs() {
        Needs needs = adaptAll(Inputs.read(words.paths)).needs();
        print(needs, System.out);
        return needs.ofUser().isEmpty() && needs.ofLibrary().isEmpty() ? 0 : 1;
    }

    /** Prints what isn't there: that of the caller's classes, and then what their calls reach in the library. */
    private static void print(Needs needs, PrintStream stream) {
        needs.ofUser().forEach(stream::println);
        needs.ofLibrary().forEach(line -> stream.println("library: " + line));
    }
}
