import java.io.IOException;
import java.nio.file.Files;
import java.nio.file.Path;
import java.nio.file.Paths;
import java.util.HashSet;
import java.util.List;
import java.util.Set;
import java.util.stream.Collectors;
import java.util.stream.Stream;
import org.objectweb.asm.ClassReader;
import org.objectweb.asm.ClassWriter;
import org.objectweb.asm.commons.ClassRemapper;
import org.objectweb.asm.commons.Remapper;

/**
 * Gives the classes of the library that have the names of the class library other names, {@code renamed/java/..} for {@code java/..}, so that a Java machine loads
 * them beside its own. The same is done in classes of a program that is given with them.
 *
 *   java Rename OUT LIBRARY [PROGRAM]
 */
public final class Rename {
    private static Set<Path> classFiles(Path folder) throws IOException {
        try (Stream<Path> files = Files.walk(folder)) {
            return files.filter(file -> file.toString().endsWith(".class")).collect(Collectors.toCollection(java.util.TreeSet::new));
        }
    }

    public static void main(String[] words) throws IOException {
        Path out = Paths.get(words[0]);
        Set<String> renamed = new HashSet<>();
        for (Path file : classFiles(Paths.get(words[1]))) {
            String name = new ClassReader(Files.readAllBytes(file)).getClassName();
            if (name.startsWith("java/")) {
                renamed.add(name);
            }
        }
        Remapper names = new Remapper() {
            @Override
            public String map(String name) {
                return renamed.contains(name) ? "renamed/" + name : name;
            }
        };
        for (String folder : List.of(words).subList(1, words.length)) {
            for (Path file : classFiles(Paths.get(folder))) {
                ClassWriter writer = new ClassWriter(0);
                new ClassReader(Files.readAllBytes(file)).accept(new ClassRemapper(writer, names), 0);
                ClassReader made = new ClassReader(writer.toByteArray());
                Path target = out.resolve(made.getClassName() + ".class");
                Files.createDirectories(target.getParent());
                Files.write(target, writer.toByteArray());
            }
        }
    }
}
