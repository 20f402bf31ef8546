import java.io.File;
import java.io.OutputStream;
import java.io.PrintStream;
import java.lang.reflect.Field;
import java.lang.reflect.InvocationTargetException;
import java.net.URL;
import java.net.URLClassLoader;
import java.nio.charset.StandardCharsets;
import java.nio.file.Files;
import java.util.ArrayList;
import java.util.List;

/**
 * Runs a program on this Java machine once for each configuration, and writes the stack trace of each that ends by an exception, as the machine prints it.
 *
 *   java Stacks.java CLASSES MAIN OPTIONS CONFIGURATIONS
 *
 * The frames below main, which call it here, and those inside of the library are taken off each throwable before it prints itself. OPTIONS is a file with a line
 * NAME CLASS FIELD for each option, CONFIGURATIONS one with the options that are on in a line, joined by commas, or a dash for none. Each configuration has the
 * classes anew, and its fields are set before main is called.
 */
public final class Stacks {
    private static boolean isLibrary(String name) {
        return name.startsWith("java.") || name.startsWith("jdk.") || name.startsWith("sun.");
    }

    /** Leaves the frames of the program. */
    private static void cut(Throwable thrown) {
        List<StackTraceElement> frames = new ArrayList<>();
        for (StackTraceElement frame : thrown.getStackTrace()) {
            if (frame.getClassName().equals(Stacks.class.getName())) {
                break;
            }
            if (!isLibrary(frame.getClassName())) {
                frames.add(new StackTraceElement(frame.getClassName(), frame.getMethodName(), frame.getFileName(), frame.getLineNumber()));
            }
        }
        thrown.setStackTrace(frames.toArray(new StackTraceElement[0]));
    }

    private static void print(Throwable thrown, PrintStream out) {
        for (Throwable t = thrown; t != null; t = t.getCause()) {
            cut(t);
        }
        out.print("Exception in thread \"main\" ");
        thrown.printStackTrace(out);
    }

    private static void ask(URL classes, String main, List<String> options, String configuration, PrintStream out) throws Exception {
        List<String> on = List.of(configuration.split(","));
        try (URLClassLoader loader = new URLClassLoader(new URL[] {classes}, null)) {
            for (String option : options) {
                String[] words = option.split(" ");
                Field field = Class.forName(words[1].replace('/', '.'), true, loader).getDeclaredField(words[2]);
                field.setAccessible(true);
                field.setBoolean(null, on.contains(words[0]));
            }
            PrintStream none = new PrintStream(OutputStream.nullOutputStream());
            System.setOut(none);
            System.setErr(none);
            try {
                Class<?> type = Class.forName(main, true, loader);
                type.getMethod("main", String[].class).invoke(null, (Object) new String[0]);
            } catch (InvocationTargetException e) {
                out.println("config " + configuration);
                print(e.getCause(), out);
            }
        }
    }

    public static void main(String[] words) throws Exception {
        URL classes = new File(words[0]).toURI().toURL();
        List<String> options = Files.readAllLines(new File(words[2]).toPath());
        PrintStream out = new PrintStream(System.out, true, StandardCharsets.UTF_8);
        for (String configuration : Files.readAllLines(new File(words[3]).toPath())) {
            ask(classes, words[1], options, configuration, out);
        }
        out.flush();
    }
}
