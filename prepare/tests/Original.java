import java.io.ByteArrayOutputStream;
import java.io.File;
import java.io.OutputStream;
import java.io.PrintStream;
import java.lang.reflect.Field;
import java.lang.reflect.InvocationTargetException;
import java.net.URL;
import java.net.URLClassLoader;
import java.nio.charset.StandardCharsets;
import java.nio.file.Files;
import java.util.ArrayList;
import java.util.List;

/**
 * Runs a program on this Java machine once for each configuration, and writes what it printed and how it ended, in the words in which varexj projects
 * a report.
 *
 *   java Original.java MAIN CONFIGURATIONS FOLDER..
 *
 * CONFIGURATIONS has for each configuration a line `config NAMES`, and behind it lines `field CLASS NAME VALUE`, `property KEY TEXT` and `argument WORD`:
 * what is set before main is called. Each configuration has the classes anew.
 */
public final class Original {
    private static final class Log {
        private final StringBuilder text = new StringBuilder();
        private final ByteArrayOutputStream bytes = new ByteArrayOutputStream();
        private String open = "";

        PrintStream stream(final String name) {
            return new PrintStream(new OutputStream() {
                @Override
                public void write(int b) {
                    if (!open.equals(name)) {
                        Log.this.end();
                        open = name;
                    }
                    bytes.write(b);
                }
            }, true, StandardCharsets.UTF_8);
        }

        void end() {
            if (bytes.size() > 0) {
                text.append(open).append(' ');
                for (byte b : bytes.toByteArray()) {
                    text.append(b >= 32 && b <= 126 && b != '\\' ? String.valueOf((char) b) : String.format("\\%02x", b & 255));
                }
                text.append('\n');
                bytes.reset();
            }
        }
    }

    private static String run(URL[] places, String main, List<String> settings) throws Exception {
        Log log = new Log();
        String end = "return";
        List<String> arguments = new ArrayList<>();
        List<String> keys = new ArrayList<>();
        try (URLClassLoader loader = new URLClassLoader(places, ClassLoader.getPlatformClassLoader())) {
            for (String setting : settings) {
                String[] words = setting.split(" ", 4);
                if (words[0].equals("field")) {
                    Field field = Class.forName(words[1].replace('/', '.'), true, loader).getDeclaredField(words[2]);
                    field.setAccessible(true);
                    field.setBoolean(null, words[3].equals("true"));
                } else if (words[0].equals("property")) {
                    System.setProperty(words[1], words[2]);
                    keys.add(words[1]);
                } else {
                    arguments.add(words[1]);
                }
            }
            PrintStream out = System.out;
            PrintStream err = System.err;
            System.setOut(log.stream("out"));
            System.setErr(log.stream("err"));
            try {
                Class<?> type = Class.forName(main.replace('/', '.'), true, loader);
                java.lang.reflect.Method method = type.getMethod("main", String[].class);
                method.setAccessible(true);
                method.invoke(null, (Object) arguments.toArray(new String[0]));
            } catch (InvocationTargetException e) {
                end = "uncaught " + e.getCause().getClass().getName().replace('.', '/');
                if (e.getCause() instanceof LinkageError) {
                    e.getCause().printStackTrace(err);
                }
            } finally {
                System.out.flush();
                System.err.flush();
                System.setOut(out);
                System.setErr(err);
                keys.forEach(System::clearProperty);
            }
        }
        log.end();
        return log.text + "end " + end + "\n";
    }

    public static void main(String[] words) throws Exception {
        System.setProperty("line.separator", "\n");
        URL[] places = new URL[words.length - 2];
        for (int at = 0; at < places.length; at++) {
            places[at] = new File(words[at + 2]).toURI().toURL();
        }
        String name = null;
        List<String> settings = new ArrayList<>();
        List<String> lines = new ArrayList<>(Files.readAllLines(new File(words[1]).toPath()));
        lines.add("config");
        for (String line : lines) {
            if (line.startsWith("config")) {
                if (name != null) {
                    System.out.print("config " + name + "\n" + run(places, words[0], settings));
                }
                name = line.substring(Math.min(line.length(), 7));
                settings.clear();
            } else {
                settings.add(line);
            }
        }
    }
}
