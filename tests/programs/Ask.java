import java.io.ByteArrayOutputStream;
import java.io.File;
import java.io.OutputStream;
import java.io.PrintStream;
import java.lang.reflect.Field;
import java.lang.reflect.InvocationTargetException;
import java.net.URL;
import java.net.URLClassLoader;
import java.nio.charset.StandardCharsets;
import java.nio.file.Files;
import java.util.ArrayList;
import java.util.List;

/**
 * Runs a program on this Java machine once for each configuration, and writes what it printed and how it ended in the words in which varexj
 * projects a report.
 *
 *   java Ask.java CLASSES MAIN OPTIONS CONFIGURATIONS TRACES
 *
 * What an uncaught exception says of where it was made goes to the file TRACES: a line for each frame of the program, the one on top first. Of one
 * that ended an initialiser it is what its cause says. OPTIONS is a file with a line NAME CLASS FIELD for each option, CONFIGURATIONS one with the options that are on in a line, joined by commas, or a
 * dash for none. Each configuration has the classes anew, and its fields are set before main is called. So a class with options may have an
 * initialiser only if it neither reads nor writes them.
 */
public final class Ask {
    /** What was written on both streams, in order. */
    private static final class Log {
        private final StringBuilder text = new StringBuilder();
        private String open = "";
        private final ByteArrayOutputStream bytes = new ByteArrayOutputStream();

        PrintStream stream(final String name) {
            return new PrintStream(new OutputStream() {
                @Override
                public void write(int b) {
                    if (!open.equals(name)) {
                        Log.this.end();
                        open = name;
                    }
                    bytes.write(b);
                }
            }, true, StandardCharsets.UTF_8);
        }

        void end() {
            if (bytes.size() > 0) {
                text.append(open).append(' ').append(spelled(bytes.toByteArray())).append('\n');
                bytes.reset();
            }
        }
    }

    private static String spelled(byte[] bytes) {
        StringBuilder text = new StringBuilder();
        for (byte b : bytes) {
            if (b >= 32 && b <= 126 && b != '\\') {
                text.append((char) b);
            } else {
                text.append(String.format("\\%02x", b & 255));
            }
        }
        return text.toString();
    }

    /** The frames of the program in which an exception was made. */
    private static String traced(Throwable thrown) {
        Throwable first = thrown instanceof ExceptionInInitializerError && thrown.getCause() != null ? thrown.getCause() : thrown;
        StringBuilder text = new StringBuilder();
        for (StackTraceElement frame : first.getStackTrace()) {
            String name = frame.getClassName();
            if (name.equals(Ask.class.getName())) {
                break;
            }
            if (!name.startsWith("java.") && !name.startsWith("jdk.") && !name.startsWith("sun.")) {
                text.append("at ").append(name.replace('.', '/')).append('.').append(frame.getMethodName());
                text.append(' ').append(frame.getLineNumber()).append('\n');
            }
        }
        return text.toString();
    }

    private static String ask(URL classes, String main, List<String> options, List<String> on, StringBuilder traces) throws Exception {
        Log log = new Log();
        String end = "return";
        try (URLClassLoader loader = new URLClassLoader(new URL[] {classes}, null)) {
            for (String option : options) {
                String[] words = option.split(" ");
                Field field = Class.forName(words[1].replace('/', '.'), true, loader).getDeclaredField(words[2]);
                field.setAccessible(true);
                field.setBoolean(null, on.contains(words[0]));
            }
            PrintStream out = System.out;
            PrintStream err = System.err;
            System.setOut(log.stream("out"));
            System.setErr(log.stream("err"));
            try {
                Class<?> type = Class.forName(main, true, loader);
                type.getMethod("main", String[].class).invoke(null, (Object) new String[0]);
            } catch (InvocationTargetException e) {
                end = "uncaught " + e.getCause().getClass().getName().replace('.', '/');
                traces.append("config ").append(String.join(",", on)).append('\n').append(traced(e.getCause()));
            } finally {
                System.out.flush();
                System.err.flush();
                System.setOut(out);
                System.setErr(err);
            }
        }
        log.end();
        return log.text + "end " + end + "\n";
    }

    public static void main(String[] words) throws Exception {
        URL classes = new File(words[0]).toURI().toURL();
        List<String> options = Files.readAllLines(new File(words[2]).toPath());
        StringBuilder all = new StringBuilder();
        StringBuilder traces = new StringBuilder();
        for (String configuration : Files.readAllLines(new File(words[3]).toPath())) {
            List<String> on = new ArrayList<>(List.of(configuration.split(",")));
            all.append("config ").append(configuration).append('\n');
            all.append(ask(classes, words[1], options, on, traces));
        }
        Files.writeString(new File(words[4]).toPath(), traces);
        System.out.print(all);
    }
}
