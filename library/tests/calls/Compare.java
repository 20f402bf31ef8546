package calls;

import java.io.IOException;
import java.nio.file.Files;
import java.nio.file.Path;
import java.nio.file.Paths;
import java.util.ArrayList;
import java.util.HashMap;
import java.util.List;
import java.util.Map;
import java.util.stream.Collectors;
import java.util.stream.Stream;
import org.objectweb.asm.ClassReader;
import org.objectweb.asm.ClassWriter;
import org.objectweb.asm.commons.ClassRemapper;
import org.objectweb.asm.commons.Remapper;

/**
 * Compares random calls of the library's collections with those of the Java machine's.
 *
 *   java calls.Compare LIBRARY CALLS FIRST COUNT CALLS_EACH [KIND..]
 *
 * LIBRARY has the class files of the library, CALLS those of this test. In both each class of the library's java.util is renamed, so that it runs beside the
 * machine's own. Seeds go from FIRST on, COUNT of them; of each kind of collection CALLS_EACH calls are made for a seed, in runs of several lengths.
 */
public final class Compare {
    private static final String[] KINDS = {"ArrayList", "LinkedList", "Vector", "AbstractList", "HashMap", "LinkedHashMap", "Hashtable", "Properties", "AbstractMap",
        "TreeMap", "EnumMap", "HashSet", "LinkedHashSet", "TreeSet", "EnumSet", "ArrayDeque", "LinkedDeque", "PriorityQueue", "LifoQueue", "BitSet", "Arrays",
        "Collections", "Fixed", "Others"};
    private static final int[] LENGTHS = {40, 120, 250, 600, 1500};

    private Compare() {
    }

    private static List<Path> classes(Path folder) throws IOException {
        try (Stream<Path> all = Files.walk(folder)) {
            return all.filter(path -> path.toString().endsWith(".class")).collect(Collectors.toList());
        }
    }

    /** The renamed classes by their names. */
    private static Map<String, byte[]> renamed(Path library, Path calls) throws IOException {
        Map<String, String> names = new HashMap<>();
        List<Path> all = new ArrayList<>(classes(library));
        for (Path path : all) {
            String name = library.relativize(path).toString().replace(".class", "");
            if (name.startsWith("java/util/")) {
                names.put(name, "renamed/" + name);
            }
        }
        all.addAll(classes(calls));
        Map<String, byte[]> result = new HashMap<>();
        Remapper remapper = new Remapper() {
            @Override
            public String map(String name) {
                return name.startsWith("calls/") ? "renamed/" + name : names.getOrDefault(name, name);
            }
        };
        for (Path path : all) {
            if (path.startsWith(library) && library.relativize(path).startsWith("java") && !library.relativize(path).startsWith("java/util")) {
                continue;
            }
            ClassReader reader = new ClassReader(Files.readAllBytes(path));
            ClassWriter writer = new ClassWriter(0);
            reader.accept(new ClassRemapper(writer, remapper), 0);
            result.put(remapper.map(reader.getClassName()).replace('/', '.'), writer.toByteArray());
        }
        return result;
    }

    private static Class<?> loaded(Map<String, byte[]> classes) throws ClassNotFoundException {
        return new ClassLoader(Compare.class.getClassLoader()) {
            @Override
            protected Class<?> findClass(String name) throws ClassNotFoundException {
                byte[] data = classes.get(name);
                if (data == null) {
                    throw new ClassNotFoundException(name);
                }
                return defineClass(name, data, 0, data.length);
            }
        }.loadClass("renamed.calls.Calls");
    }

    private static String[] lines(Class<?> calls, String kind, long seed, int count) throws Exception {
        return (String[]) calls.getMethod("run", String.class, long.class, int.class).invoke(null, kind, seed, count);
    }

    public static void main(String[] words) throws Exception {
        Class<?> library = loaded(renamed(Paths.get(words[0]), Paths.get(words[1])));
        long first = Long.parseLong(words[2]);
        int seeds = Integer.parseInt(words[3]);
        int each = Integer.parseInt(words[4]);
        String[] kinds = words.length > 5 ? java.util.Arrays.copyOfRange(words, 5, words.length) : KINDS;
        int total = 0;
        int different = 0;
        for (String kind : kinds) {
            int done = 0;
            int ended = 0;
            Map<String, Integer> ends = new HashMap<>();
            for (long seed = first; seed < first + seeds; seed++) {
                long run = seed * 1_000_003;
                int compared = 0;
                while (compared < each) {
                    run++;
                    int count = Math.min(each - compared, LENGTHS[(int) (run % LENGTHS.length)]);
                    String[] expected = lines(Calls.class, kind, run, count);
                    String[] found = lines(library, kind, run, count);
                    int same = 0;
                    while (same < found.length && same < expected.length && found[same].equals(expected[same])) {
                        same++;
                    }
                    compared += Math.max(same, 1);
                    done += same;
                    if (same < found.length && found[same].startsWith("native")) {
                        ended++;
                        ends.merge(found[same].replaceAll("\\(.*", ""), 1, Integer::sum);
                    } else if (same < expected.length || same < found.length) {
                        different++;
                        System.out.println(kind + " differs with seed " + run + " at call " + same);
                        System.out.println("  before   " + (same > 0 ? cut(expected[same - 1]) : ""));
                        System.out.println("  expected " + (same < expected.length ? cut(expected[same]) : "nothing"));
                        System.out.println("  found    " + (same < found.length ? cut(found[same]) : "nothing"));
                        break;
                    }
                }
            }
            total += done;
            System.out.println(kind + ": " + done + " calls, " + ended + " runs ended by native methods " + ends);
        }
        System.out.println(total + " calls, " + different + " differences");
        System.exit(different == 0 ? 0 : 1);
    }

    private static String cut(String line) {
        return line.length() > 400 ? line.substring(0, 400) + ".." : line;
    }
}
