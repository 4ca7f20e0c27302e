import java.io.BufferedReader;
import java.io.ByteArrayOutputStream;
import java.io.InputStreamReader;
import java.io.PrintStream;
import java.io.PrintWriter;
import java.io.StringWriter;
import java.lang.reflect.Method;
import java.nio.charset.StandardCharsets;
import java.util.Arrays;
import javax.tools.JavaCompiler;
import javax.tools.ToolProvider;

/** Compiles and adapts program after program in one virtual machine: reads a line of words, parted by tabs, and answers with one line. */
public class TestServer {
    private TestServer() {
    }

    /** Answers `ok`, or what the compiler or the tool says. */
    public static void main(String[] none) throws Exception {
        BufferedReader in = new BufferedReader(new InputStreamReader(System.in, StandardCharsets.UTF_8));
        for (String line = in.readLine(); line != null; line = in.readLine()) {
            String[] words = line.split("\t");
            String[] arguments = Arrays.copyOfRange(words, 1, words.length);
            String said = call(words[0], arguments);
            System.out.println(said == null ? "ok" : "failed " + said.replace('\n', ' '));
            System.out.flush();
        }
    }

    private static String call(String program, String[] arguments) throws Exception {
        switch (program) {
            case "ecj": return ecj(arguments);
            case "javac": return javac(arguments);
            default: return tool(arguments);
        }
    }

    private static String javac(String[] arguments) {
        JavaCompiler compiler = ToolProvider.getSystemJavaCompiler();
        ByteArrayOutputStream said = new ByteArrayOutputStream();
        return compiler.run(null, said, said, arguments) == 0 ? null : said.toString();
    }

    /** Calls the Eclipse compiler, which is on the class path where it is installed. */
    private static String ecj(String[] arguments) throws Exception {
        Class<?> batch = Class.forName("org.eclipse.jdt.core.compiler.batch.BatchCompiler");
        Class<?> progress = Class.forName("org.eclipse.jdt.core.compiler.CompilationProgress");
        Method compile = batch.getMethod("compile", String[].class, PrintWriter.class, PrintWriter.class, progress);
        StringWriter said = new StringWriter();
        PrintWriter writer = new PrintWriter(said);
        boolean done = (Boolean) compile.invoke(null, arguments, writer, writer, null);
        return done ? null : said.toString();
    }

    /** Calls the tool as its script does. */
    private static String tool(String[] arguments) throws Exception {
        Method call = Class.forName("jvmx.tool.Main").getMethod("call", String[].class);
        PrintStream before = System.err;
        ByteArrayOutputStream said = new ByteArrayOutputStream();
        System.setErr(new PrintStream(said, true));
        try {
            return call.invoke(null, (Object) arguments).equals(0) ? null : said.toString();
        } finally {
            System.setErr(before);
        }
    }
}
