import java.io.BufferedReader;
import java.io.ByteArrayOutputStream;
import java.io.InputStreamReader;
import java.io.PrintStream;
import java.lang.reflect.Constructor;
import java.lang.reflect.Field;
import java.lang.reflect.InvocationTargetException;
import java.lang.reflect.Method;
import java.net.URL;
import java.net.URLClassLoader;
import java.nio.charset.StandardCharsets;
import java.nio.file.Path;
import java.nio.file.Paths;
import java.util.Arrays;
import javax.tools.ToolProvider;

/**
 * Compiles and runs `prepare` with one source of it edited, again and again in one Java machine. Wants the jars of ASM on its class path.
 *
 *   java Bench.java CLASSES HOME
 *
 * CLASSES has the classes of `prepare` as they stand, HOME is the folder above. Each line that it reads is a request, words behind tabs: `compile FOLDER SOURCE` compiles the source into
 * FOLDER; `prepare FOLDER WORD..` runs with the classes of FOLDER before the others. The answer is a line with the status and the lengths of what was written, and then that.
 */
public final class Bench {
    private static String classes;
    private static Path home;

    public static void main(String[] args) throws Exception {
        classes = args[0];
        home = Paths.get(args[1]);
        PrintStream answers = System.out;
        PrintStream errors = System.err;
        BufferedReader requests = new BufferedReader(new InputStreamReader(System.in, StandardCharsets.UTF_8));
        for (String line = requests.readLine(); line != null; line = requests.readLine()) {
            String[] words = line.split("\t", -1);
            ByteArrayOutputStream out = new ByteArrayOutputStream();
            ByteArrayOutputStream error = new ByteArrayOutputStream();
            int status;
            System.setOut(new PrintStream(out, true, "UTF-8"));
            System.setErr(new PrintStream(error, true, "UTF-8"));
            try {
                status = words[0].equals("compile") ? compile(words[1], words[2]) : prepare(words[1], Arrays.copyOfRange(words, 2, words.length));
            } finally {
                System.setErr(errors);
            }
            answers.println(status + " " + out.size() + " " + error.size());
            answers.write(out.toByteArray());
            answers.write(error.toByteArray());
            answers.flush();
        }
    }

    private static int compile(String folder, String source) {
        String path = classes + ":" + System.getProperty("java.class.path");
        return ToolProvider.getSystemJavaCompiler().run(null, System.out, System.err, "-nowarn", "-Xlint:-options", "-source", "8", "-target", "8", "-cp", path, "-d", folder, source);
    }

    private static int prepare(String folder, String[] words) throws Exception {
        URL[] places = {Paths.get(folder).toUri().toURL(), Paths.get(classes).toUri().toURL()};
        try (URLClassLoader loader = new URLClassLoader(places)) {
            Class<?> type = loader.loadClass("varexj.prepare.Prepare");
            Method read = loader.loadClass("varexj.prepare.Words").getDeclaredMethod("read", String[].class);
            read.setAccessible(true);
            Constructor<?> make = type.getDeclaredConstructor(read.getDeclaringClass(), Path.class);
            make.setAccessible(true);
            Method run = type.getDeclaredMethod("run");
            run.setAccessible(true);
            try {
                return (Integer) run.invoke(make.newInstance(read.invoke(null, (Object) words), home));
            } catch (InvocationTargetException e) {
                return status(e.getCause());
            }
        }
    }

    /** The status of a refusal; that of any other fault is the one of a Java machine. */
    private static int status(Throwable cause) throws Exception {
        if (!cause.getClass().getName().equals("varexj.prepare.Refusal")) {
            cause.printStackTrace();
            return 1;
        }
        System.err.println("prepare: " + cause.getMessage());
        Field status = cause.getClass().getDeclaredField("status");
        status.setAccessible(true);
        return status.getInt(cause);
    }
}
