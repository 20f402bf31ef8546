package varexj.prepare;

import java.io.IOException;
import java.nio.charset.StandardCharsets;
import java.nio.file.Files;
import java.nio.file.Path;
import java.nio.file.Paths;
import java.util.HashSet;
import java.util.Set;

/** Writes a model anew, with the class and the field behind each option that a source binds. */
final class Models {
    private Models() {
    }

    static void write(Words words) {
        if (words.modelOut == null) {
            return;
        }
        boolean isDimacs = words.model != null && (words.model.endsWith(".cnf") || words.model.endsWith(".dimacs"));
        StringBuilder text = new StringBuilder();
        Set<String> bound = new HashSet<>();
        for (String line : words.model == null ? new String[0] : read(words.model).split("\n")) {
            text.append(bind(words, line, isDimacs, bound)).append('\n');
        }
        for (Source source : words.options) {
            if (bound.add(source.option)) {
                if (words.model != null) {
                    throw new Refusal(Refusal.USAGE, "the model has no option " + source.option);
                }
                text.append("option ").append(source.option).append(' ').append(source.binding()).append('\n');
            }
        }
        try {
            Files.write(Paths.get(words.modelOut), text.toString().getBytes(StandardCharsets.ISO_8859_1));
        } catch (IOException e) {
            throw new Refusal(Refusal.UNREADABLE, "can't be written: " + words.modelOut);
        }
    }

    private static String read(String name) {
        try {
            Path path = Paths.get(name);
            return new String(Files.readAllBytes(path), StandardCharsets.ISO_8859_1);
        } catch (IOException e) {
            throw new Refusal(Refusal.UNREADABLE, "can't be read: " + name);
        }
    }

    /** A line `option NAME`, or in DIMACS `c NUMBER NAME`, gets class and field behind it; any other line stays. */
    private static String bind(Words words, String line, boolean isDimacs, Set<String> bound) {
        String[] parts = line.trim().split("[ \t]+");
        int at = isDimacs ? 2 : 1;
        if (!parts[0].equals(isDimacs ? "c" : "option") || parts.length <= at) {
            return line;
        }
        for (Source source : words.options) {
            if (source.option.equals(parts[at])) {
                bound.add(source.option);
                return (isDimacs ? "c " + parts[1] + " " : "option ") + source.option + " " + source.binding();
            }
        }
        return line;
    }
}
