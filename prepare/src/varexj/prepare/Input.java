package varexj.prepare;

import java.io.ByteArrayOutputStream;
import java.io.IOException;
import java.io.InputStream;
import java.nio.file.Files;
import java.nio.file.Path;
import java.nio.file.Paths;
import java.util.Enumeration;
import java.util.HashMap;
import java.util.LinkedHashMap;
import java.util.List;
import java.util.Map;
import java.util.jar.Attributes;
import java.util.jar.JarEntry;
import java.util.jar.JarFile;
import java.util.stream.Collectors;
import java.util.stream.Stream;
import org.objectweb.asm.ClassReader;
import org.objectweb.asm.ClassVisitor;
import org.objectweb.asm.MethodVisitor;
import org.objectweb.asm.Opcodes;
import org.objectweb.asm.commons.JSRInlinerAdapter;
import org.objectweb.asm.tree.ClassNode;

/** Reads class files of folders and jars. Of two classes of one name the first one counts, as on a class path. */
final class Input {
    private static final int MAJOR = 6;
    private static final int NEWEST = 65;

    final Map<String, ClassNode> classes = new LinkedHashMap<>();
    /** By class: the number of the folder or jar that it is from, from 0 on. */
    final Map<String, Integer> places = new HashMap<>();
    private int count;
    /** The main class that the first jar with one names, or null. */
    String main;

    void read(String place) {
        Path path = Paths.get(place);
        try {
            if (Files.isDirectory(path)) {
                readFolder(path);
            } else {
                readJar(path);
            }
        } catch (IOException | RuntimeException e) {
            throw e instanceof Refusal ? (Refusal) e : new Refusal(Refusal.UNREADABLE, "can't be read: " + place);
        }
        count++;
    }

    private void readFolder(Path folder) throws IOException {
        List<Path> files;
        try (Stream<Path> walk = Files.walk(folder)) {
            files = walk.filter(file -> isClass(folder.relativize(file).toString())).sorted().collect(Collectors.toList());
        }
        for (Path file : files) {
            take(Files.readAllBytes(file), file.toString());
        }
    }

    private void readJar(Path path) throws IOException {
        try (JarFile jar = new JarFile(path.toFile())) {
            if (main == null && jar.getManifest() != null) {
                String named = jar.getManifest().getMainAttributes().getValue(Attributes.Name.MAIN_CLASS);
                main = named == null ? null : named.trim().replace('.', '/');
            }
            for (Enumeration<JarEntry> entries = jar.entries(); entries.hasMoreElements();) {
                JarEntry entry = entries.nextElement();
                if (isClass(entry.getName())) {
                    take(bytes(jar.getInputStream(entry)), path + "!" + entry.getName());
                }
            }
        }
    }

    private static boolean isClass(String name) {
        return name.endsWith(".class") && !name.startsWith("META-INF") && !name.endsWith("module-info.class") && !name.endsWith("package-info.class");
    }

    private static byte[] bytes(InputStream from) throws IOException {
        try (InputStream stream = from) {
            ByteArrayOutputStream all = new ByteArrayOutputStream();
            byte[] some = new byte[65536];
            for (int count = stream.read(some); count >= 0; count = stream.read(some)) {
                all.write(some, 0, count);
            }
            return all.toByteArray();
        }
    }

    private void take(byte[] data, String place) {
        ClassNode node = node(data, place);
        classes.putIfAbsent(node.name, node);
        places.putIfAbsent(node.name, count);
    }

    /** The class of these bytes. Nothing in the format differs between the versions of Java 20 and 21. */
    static ClassNode node(byte[] data, String place) {
        int major = data.length < 8 ? 0 : (data[MAJOR] & 255) << 8 | data[MAJOR + 1] & 255;
        if (major > NEWEST) {
            throw new Refusal(Refusal.UNREADABLE, place + " is of a later version of Java, with major version " + major);
        }
        if (major == NEWEST) {
            data[MAJOR + 1] = (byte) (NEWEST - 1);
        }
        try {
            ClassNode node = new ClassNode();
            new ClassReader(data).accept(major > Opcodes.V1_5 ? node : withoutSubroutines(node), 0);
            return node;
        } catch (RuntimeException e) {
            throw new Refusal(Refusal.UNREADABLE, place + " is no class file");
        }
    }

    private static ClassVisitor withoutSubroutines(ClassNode node) {
        return new ClassVisitor(Opcodes.ASM9, node) {
            @Override
            public MethodVisitor visitMethod(int access, String name, String descriptor, String signature, String[] exceptions) {
                MethodVisitor next = super.visitMethod(access, name, descriptor, signature, exceptions);
                return new JSRInlinerAdapter(next, access, name, descriptor, signature, exceptions);
            }
        };
    }
}
