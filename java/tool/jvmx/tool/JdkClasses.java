package jvmx.tool;

import java.io.ByteArrayOutputStream;
import java.io.IOException;
import java.io.InputStream;
import java.util.regex.Pattern;

/** Reads those classes of the caller's java.base whose code can run on the machine. */
final class JdkClasses {
    /** Classes whose code rests on what the machine can't have: files, locales, reflection, weak references, floats. */
    private static final Pattern WITHHELD = Pattern.compile(
        "java/lang/(reflect|invoke|ref|module|annotation|instrument)/.*"
        + "|java/io/(File|RandomAccess|Object(In|Out)put|Console).*|java/(net|nio|text|time|security)/.*"
        + "|java/util/(Locale|Formatter|Scanner|Date|Calendar|ResourceBundle|ServiceLoader|Properties|WeakHashMap|Currency"
        + "|TimeZone|Logging|GregorianCalendar|Spliterators\\$Double.*)(\\$.*)?"
        + "|java/util/(zip|jar|prefs|logging|spi)/.*"
        + "|java/lang/(Float|Double|StrictMath|Process.*|ClassLoader.*|Module.*|Shutdown|Terminator|StringUTF16|StringLatin1"
        + "|StringCoding|AbstractStringBuilder|String.*Concat.*|SecurityManager|Package|Compiler|StackWalker.*"
        + "|StackTraceElement|FdLibm)(\\$.*)?"
        + "|java/math/(BigDecimal|MathContext)|jdk/internal/(reflect|loader|access|logger|module|icu|jimage|org|foreign|vm"
        + "|event|perf)/.*|jdk/internal/misc/(VM|CDS|Unsafe|Signal|InnocuousThread).*");
    private static final Pattern OFFERED = Pattern.compile("(java|jdk/internal|sun/security/action)/.*");

    private JdkClasses() { }

    /** Returns the class file of a class, or null if the JDK hasn't the class or it isn't offered. Ancestors always are. */
    static byte[] read(String name, boolean isAncestor) {
        return isOffered(name) || isAncestor ? bytes(name) : null;
    }

    private static boolean isOffered(String name) {
        return OFFERED.matcher(name).matches() && !WITHHELD.matcher(name).matches();
    }

    private static byte[] bytes(String name) {
        try (InputStream stream = ClassLoader.getSystemResourceAsStream(name + ".class")) {
            return stream == null ? null : readAll(stream);
        } catch (IOException failure) {
            throw Refusal.ofDevice("java.base of " + System.getProperty("java.home") + ": " + name + ": " + failure.getMessage());
        }
    }

    /** Returns all bytes of a stream. */
    static byte[] readAll(InputStream stream) throws IOException {
        ByteArrayOutputStream bytes = new ByteArrayOutputStream();
        byte[] buffer = new byte[16384];
        for (int count = stream.read(buffer); count >= 0; count = stream.read(buffer)) {
            bytes.write(buffer, 0, count);
        }
        return bytes.toByteArray();
    }
}
