import java.io.OutputStream;
import java.io.PrintStream;
import java.lang.reflect.Method;

/** Runs the main of a class again and again for some seconds, and prints how often, and the nanoseconds of the fastest. */
public class Time {
    public static void main(String[] words) throws Exception {
        PrintStream said = System.out;
        System.setOut(new PrintStream(OutputStream.nullOutputStream()));
        Method main = Class.forName(words[0]).getMethod("main", String[].class);
        long end = System.nanoTime() + Long.parseLong(words[1]) * 1000000000L;
        long least = Long.MAX_VALUE;
        int count = 0;
        while (count == 0 || System.nanoTime() < end) {
            long begin = System.nanoTime();
            main.invoke(null, (Object) new String[0]);
            least = Math.min(least, System.nanoTime() - begin);
            count++;
        }
        said.println(count + " " + least);
    }
}
