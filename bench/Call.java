import java.io.OutputStream;
import java.io.PrintStream;
import java.lang.invoke.MethodType;
import java.lang.reflect.Method;
import java.lang.reflect.Modifier;
import java.net.URL;
import java.net.URLClassLoader;
import java.nio.file.Paths;

/** Calls each static method of ints and longs with such a result, of the classes that are named after their folder, with
 *  some arguments, and prints a line for each call: the class, the entry, the arguments or -, and the result, threw or
 *  late. Each call has its classes anew; what they print is dropped. */
public class Call {
    private static final int[][] INTS = {
        {48, 36, 7, 2}, {-7, 2, 3, 4}, {Integer.MAX_VALUE, Integer.MIN_VALUE, 1, 0}, {0, 0, 0, 0},
        {Integer.MIN_VALUE, -1, 31, 33}, {1, 10, 5, 8},
    };

    private static final long[][] LONGS = {
        {48, 36, 7, 2}, {-7, 2, 3, 4}, {Long.MAX_VALUE, Long.MIN_VALUE, 1, 0}, {0, 0, 0, 0},
        {Long.MIN_VALUE, -1, 63, 65}, {1L << 32, 10, -1L << 31, 8},
    };

    private static final PrintStream SAID = System.out;

    private static Class<?> loaded(URL folder, String name) throws ClassNotFoundException {
        URL[] folders = {folder};
        return new URLClassLoader(folders, ClassLoader.getPlatformClassLoader()).loadClass(name.replace('/', '.'));
    }

    private static boolean isWhole(Class<?> type) {
        return type == int.class || type == long.class;
    }

    private static boolean takesWholes(Method method) {
        for (Class<?> parameter : method.getParameterTypes()) {
            if (!isWhole(parameter)) return false;
        }
        return Modifier.isStatic(method.getModifiers()) && isWhole(method.getReturnType());
    }

    private static Method again(Class<?> owner, Method named) throws NoSuchMethodException {
        Method method = owner.getDeclaredMethod(named.getName(), named.getParameterTypes());
        method.setAccessible(true);
        return method;
    }

    private static Object argument(Class<?> type, int row, int place) {
        if (type == long.class) return LONGS[row][place % LONGS[row].length];
        return INTS[row][place % INTS[row].length];
    }

    private static String result(Method method, Object[] arguments) throws InterruptedException {
        String[] said = {"late"};
        Thread thread = new Thread(() -> {
            try {
                said[0] = String.valueOf(method.invoke(null, arguments));
            } catch (Throwable thrown) {
                said[0] = "threw";
            }
        });
        thread.setDaemon(true);
        thread.start();
        thread.join(2000);
        return said[0];
    }

    private static void call(URL folder, String owner, Method named) throws Exception {
        Class<?>[] parameters = named.getParameterTypes();
        String descriptor = MethodType.methodType(named.getReturnType(), parameters).toMethodDescriptorString();
        String entry = owner + "." + named.getName() + "." + descriptor;
        for (int row = 0; row < INTS.length; row++) {
            Object[] arguments = new Object[parameters.length];
            StringBuilder words = new StringBuilder(parameters.length == 0 ? "-" : "");
            for (int i = 0; i < parameters.length; i++) {
                arguments[i] = argument(parameters[i], row, i);
                words.append(i > 0 ? "," : "").append(arguments[i]);
            }
            String result = result(again(loaded(folder, owner), named), arguments);
            SAID.println("call " + owner + " " + entry + " " + words + " " + result);
        }
    }

    public static void main(String[] words) throws Exception {
        System.setOut(new PrintStream(OutputStream.nullOutputStream()));
        URL folder = Paths.get(words[0]).toUri().toURL();
        for (int i = 1; i < words.length; i++) {
            try {
                for (Method method : loaded(folder, words[i]).getDeclaredMethods()) {
                    if (takesWholes(method)) call(folder, words[i], method);
                }
            } catch (LinkageError error) {
                System.err.println(words[i] + ": " + error);
            }
        }
        SAID.flush();
        System.exit(0);
    }
}
